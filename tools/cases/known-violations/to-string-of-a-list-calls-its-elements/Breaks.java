// toString of a list calls toString of its elements, which closes.
import java.util.*;

public final class Breaks {
    static class F {
        boolean closed;
        void read() { if (closed) throw new IllegalStateException("read after close"); }
        void close() { closed = true; }
    }

    static final class Item {
        final F file = new F();
        public String toString() { file.close(); return "item"; }
    }

    public static void main(String[] args) {
        List<Item> items = new ArrayList<Item>();
        Item item = new Item();
        items.add(item);
        System.out.println("items: " + items);
        item.file.read();  // errs here
    }
}

// AbstractMap.get calls entrySet of the own map, which closes.
import java.util.*;

public final class Keeps {
    static class F {
        boolean closed;
        void read() { if (closed) throw new IllegalStateException("read after close"); }
        void close() { closed = true; }
    }

    static final class Table extends AbstractMap<String, String> {
        final F file = new F();
        public Set<Map.Entry<String, String>> entrySet() {
            file.close();
            return new HashSet<Map.Entry<String, String>>();
        }
    }

    public static void main(String[] args) {
        Table table = new Table();
        table.file.read();
        System.out.println(table.get("key"));
    }
}

// ArrayList.addAll takes holders from toArray of an own collection.
import java.util.*;

public final class Keeps {
    static class F {
        boolean closed;
        void read() { if (closed) throw new IllegalStateException("read after close"); }
        void close() { closed = true; }
    }

    static final class Holder {
        final F f;
        Holder(F f) { this.f = f; }
    }
    static final class One implements Collection<Holder> {
        final Holder[] held;
        One(Holder held) { this.held = new Holder[] { held }; }
        public Object[] toArray() { return held; }
        public <T> T[] toArray(T[] into) { return null; }
        public int size() { return 1; }
        public boolean isEmpty() { return false; }
        public boolean contains(Object o) { return false; }
        public Iterator<Holder> iterator() { return null; }
        public boolean add(Holder o) { return false; }
        public boolean remove(Object o) { return false; }
        public boolean containsAll(Collection<?> o) { return false; }
        public boolean addAll(Collection<? extends Holder> o) { return false; }
        public boolean removeAll(Collection<?> o) { return false; }
        public boolean retainAll(Collection<?> o) { return false; }
        public void clear() { }
    }

    public static void main(String[] args) throws Exception {
        Holder held = new Holder(new F());
        ArrayList<Holder> list = new ArrayList<Holder>(new One(held));
        list.get(0).f.read();
        held.f.read();
    }
}

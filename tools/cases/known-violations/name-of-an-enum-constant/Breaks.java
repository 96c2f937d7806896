// The constructor of Enum keeps the name that name and toString give. Behind the use of that text the file is read.
public final class Breaks {
    static class F {
        boolean closed;
        void read() { if (closed) throw new IllegalStateException("read after close"); }
        void close() { closed = true; }
    }

    enum Size { SMALL, LARGE }

    public static void main(String[] args) {
        F file = new F();
        file.close();
        System.out.println(Size.valueOf("SMALL").name().length() + Size.LARGE.toString().length());
        file.read();  // errs here
    }
}

// RandomAccessFile.readInt calls read of the same object.
import java.util.*;
import java.io.*;
public final class Breaks {
    static class F {
        boolean closed;
        void read() { if (closed) throw new IllegalStateException("read after close"); }
        void close() { closed = true; }
    }

    static final class Numbers extends RandomAccessFile {
        final F f;
        Numbers(F f) throws IOException { super("/dev/zero", "r"); this.f = f; }
        public int read() throws IOException { f.close(); return 0; }
        public int read(byte[] into, int from, int count) throws IOException { f.close(); return count; }
    }

    public static void main(String[] args) throws Exception {
        F f = new F();
        System.out.println(new Numbers(f).readInt());
        f.read();  // errs here
    }
}

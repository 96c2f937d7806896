// ByteBuffer.put throws BufferOverflowException where the buffer is full.
import java.nio.*;

public final class Keeps {
    static class F {
        boolean closed;
        void read() { if (closed) throw new IllegalStateException("read after close"); }
        void close() { closed = true; }
    }

    public static void main(String[] args) {
        F file = new F();
        ByteBuffer buffer = ByteBuffer.allocate(2);
        try {
            for (int each = 0; each < 3; each++) {
                buffer.put((byte) each);
            }
        } catch (BufferOverflowException full) {
            file.read();
        }
        file.close();
    }
}

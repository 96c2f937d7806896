// ServerSocket.accept throws SocketTimeoutException, below the declared IOException.
import java.io.IOException;
import java.net.*;

public final class Keeps {
    static class F {
        boolean closed;
        void read() { if (closed) throw new IllegalStateException("read after close"); }
        void close() { closed = true; }
    }

    public static void main(String[] args) throws IOException {
        F file = new F();
        ServerSocket server = new ServerSocket(0);
        server.setSoTimeout(10);
        try {
            server.accept().close();
        } catch (SocketTimeoutException late) {
            file.read();
            file.close();
        }
        server.close();
        System.out.println("end");
    }
}

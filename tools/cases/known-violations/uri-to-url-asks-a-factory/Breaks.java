// URI.toURL asks the factory of stream handlers that the program set.
import java.net.*;
public final class Breaks {
    static class F {
        boolean closed;
        void read() { if (closed) throw new IllegalStateException("read after close"); }
        void close() { closed = true; }
    }
    static final F file = new F();
    static class Factory implements URLStreamHandlerFactory {
        public URLStreamHandler createURLStreamHandler(String protocol) { if (protocol.equals("own")) file.close(); return null; }
    }
    public static void main(String[] args) throws Exception {
        URL.setURLStreamHandlerFactory(new Factory());
        try {
            new URI("own://x/y").toURL();
        } catch (MalformedURLException e) {
            System.out.println("no handler");
        }
        file.read();  // errs here
    }
}

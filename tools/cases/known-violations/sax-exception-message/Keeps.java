// A SAXException asks the exception that it wraps for its message.
import java.util.*;
import org.xml.sax.SAXException;
public final class Keeps {
    static class F {
        boolean closed;
        void read() { if (closed) throw new IllegalStateException("read after close"); }
        void close() { closed = true; }
    }

    static final class Fault extends Exception {
        final F f;
        Fault(F f) { this.f = f; }
        public String getMessage() { f.read(); return "fault"; }
    }

    public static void main(String[] args) throws Exception {
        F f = new F();
        System.out.println(new SAXException(new Fault(f)).getMessage());
        f.read();
    }
}

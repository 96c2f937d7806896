// XMLReaderFactory makes an object of the class that it is given the name of.
import java.util.*;
import org.xml.sax.helpers.*;
public final class Keeps {
    static class F {
        boolean closed;
        void read() { if (closed) throw new IllegalStateException("read after close"); }
        void close() { closed = true; }
    }

    static F f = new F();
    public static final class Reader extends XMLFilterImpl {
        public Reader() { f.read(); }
    }

    public static void main(String[] args) throws Exception {
        XMLReaderFactory.createXMLReader("Keeps$Reader");
        f.read();
    }
}

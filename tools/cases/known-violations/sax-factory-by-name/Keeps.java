// SAXParserFactory makes an object of a class that a system property names.
import java.util.*;
import javax.xml.parsers.*;
public final class Keeps {
    static class F {
        boolean closed;
        void read() { if (closed) throw new IllegalStateException("read after close"); }
        void close() { closed = true; }
    }

    static F f = new F();
    public static final class Factory extends SAXParserFactory {
        public Factory() { f.read(); }
        public SAXParser newSAXParser() { return null; }
        public void setFeature(String name, boolean value) { }
        public boolean getFeature(String name) { return false; }
    }

    public static void main(String[] args) throws Exception {
        System.setProperty("javax.xml.parsers.SAXParserFactory", "Keeps$Factory");
        SAXParserFactory.newInstance();
        f.read();
    }
}

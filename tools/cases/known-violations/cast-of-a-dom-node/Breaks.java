// A node of a document is cast to Element, and decides.
import javax.xml.parsers.DocumentBuilderFactory;
import org.w3c.dom.*;

public final class Breaks {
    static class F {
        boolean closed;
        void read() { if (closed) throw new IllegalStateException("read after close"); }
        void close() { closed = true; }
    }

    public static void main(String[] args) throws Exception {
        F file = new F();
        Document document = DocumentBuilderFactory.newInstance().newDocumentBuilder().newDocument();
        document.appendChild(document.createElement("last"));
        Element root = (Element) document.getFirstChild();
        if (root.getTagName().equals("last")) {
            file.close();
        }
        file.read();  // errs here
    }
}

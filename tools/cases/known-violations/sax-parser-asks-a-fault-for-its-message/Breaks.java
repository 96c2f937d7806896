// A SAX parser takes the exception of a handler into one of its own, by its message; to tell it closes the writer.
import java.io.*;
import javax.xml.parsers.*;
import org.xml.sax.*;
import org.xml.sax.helpers.DefaultHandler;

public final class Breaks {
    static final class Fault extends SAXException {
        final FileWriter to;
        Fault(FileWriter to) { this.to = to; }
        public String getMessage() {
            try {
                to.close();
            } catch (IOException fault) {
                return null;
            }
            return "x";
        }
    }

    static final class Output extends DefaultHandler {
        final FileWriter to;
        Output(FileWriter to) { this.to = to; }
        public void error(SAXParseException fault) throws SAXException { throw new Fault(to); }
        public void fatalError(SAXParseException fault) throws SAXException { throw new Fault(to); }
    }

    static String path() throws IOException {
        File made = File.createTempFile("known", ".tmp");
        made.deleteOnExit();
        return made.getPath();
    }

    public static void main(String[] args) throws Exception {
        FileWriter file = new FileWriter(path());
        InputSource text = new InputSource(new StringReader("<a"));
        try {
            SAXParserFactory.newInstance().newSAXParser().parse(text, new Output(file));
        } catch (SAXException fault) {
            file.write("end");  // errs here
        }
    }
}

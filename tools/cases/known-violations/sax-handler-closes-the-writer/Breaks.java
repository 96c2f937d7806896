// A SAX parser calls a handler, which closes the writer at the end of the document.
import java.io.*;
import javax.xml.parsers.*;
import org.xml.sax.*;
import org.xml.sax.helpers.DefaultHandler;

public final class Breaks {
    static final class Output extends DefaultHandler {
        final FileWriter to;
        Output(FileWriter to) { this.to = to; }
        public void endDocument() throws SAXException {
            try {
                to.close();
            } catch (IOException fault) {
                throw new SAXException(fault);
            }
        }
    }

    static String path() throws IOException {
        File made = File.createTempFile("known", ".tmp");
        made.deleteOnExit();
        return made.getPath();
    }

    public static void main(String[] args) throws Exception {
        FileWriter file = new FileWriter(path());
        InputSource text = new InputSource(new StringReader("<a/>"));
        SAXParserFactory.newInstance().newSAXParser().parse(text, new Output(file));
        file.write("end");  // errs here
    }
}

package javax.xml.parsers;

import java.io.File;
import java.io.IOException;
import java.io.InputStream;
import javax.xml.validation.Schema;
import library.Library;
import library.SaxReader;
import org.xml.sax.HandlerBase;
import org.xml.sax.InputSource;
import org.xml.sax.Parser;
import org.xml.sax.SAXException;
import org.xml.sax.SAXNotRecognizedException;
import org.xml.sax.SAXNotSupportedException;
import org.xml.sax.XMLReader;
import org.xml.sax.helpers.DefaultHandler;

/**
 * Parses XML by its reader, to which it hands the handler. It may do so by a reader of the library's besides, since that of a class which is
 * described calls nothing.
 */
@SuppressWarnings("deprecation")
public abstract class SAXParser {
    protected SAXParser() {
    }

    public void reset() {
        throw new UnsupportedOperationException();
    }

    public void parse(InputStream is, HandlerBase hb) throws SAXException, IOException {
        parse(new InputSource(is), hb);
    }

    public void parse(InputStream is, HandlerBase hb, String systemId) throws SAXException, IOException {
        parse(new InputSource(is), hb);
    }

    public void parse(InputStream is, DefaultHandler dh) throws SAXException, IOException {
        parse(new InputSource(is), dh);
    }

    public void parse(InputStream is, DefaultHandler dh, String systemId) throws SAXException, IOException {
        parse(new InputSource(is), dh);
    }

    public void parse(String uri, HandlerBase hb) throws SAXException, IOException {
        parse(new InputSource(uri), hb);
    }

    public void parse(String uri, DefaultHandler dh) throws SAXException, IOException {
        parse(new InputSource(uri), dh);
    }

    public void parse(File f, HandlerBase hb) throws SAXException, IOException {
        f.toURI();
        parse(new InputSource(Library.text()), hb);
    }

    public void parse(File f, DefaultHandler dh) throws SAXException, IOException {
        f.toURI();
        parse(new InputSource(Library.text()), dh);
    }

    public void parse(InputSource is, HandlerBase hb) throws SAXException, IOException {
        Parser parser = Library.any() ? getParser() : new SaxReader(null);
        if (parser != null) {
            if (hb != null) {
                parser.setDocumentHandler(hb);
                parser.setEntityResolver(hb);
                parser.setErrorHandler(hb);
                parser.setDTDHandler(hb);
            }
            parser.parse(is);
        }
    }

    public void parse(InputSource is, DefaultHandler dh) throws SAXException, IOException {
        XMLReader reader = Library.any() ? getXMLReader() : new SaxReader(null);
        if (reader != null) {
            if (dh != null) {
                reader.setContentHandler(dh);
                reader.setEntityResolver(dh);
                reader.setErrorHandler(dh);
                reader.setDTDHandler(dh);
            }
            reader.parse(is);
        }
    }

    public abstract Parser getParser() throws SAXException;

    public abstract XMLReader getXMLReader() throws SAXException;

    public abstract boolean isNamespaceAware();

    public abstract boolean isValidating();

    public abstract void setProperty(String name, Object value) throws SAXNotRecognizedException, SAXNotSupportedException;

    public abstract Object getProperty(String name) throws SAXNotRecognizedException, SAXNotSupportedException;

    public Schema getSchema() {
        throw new UnsupportedOperationException();
    }

    public boolean isXIncludeAware() {
        throw new UnsupportedOperationException();
    }
}

package library;

import javax.xml.parsers.SAXParser;
import javax.xml.validation.Schema;
import org.xml.sax.Parser;
import org.xml.sax.SAXNotRecognizedException;
import org.xml.sax.SAXNotSupportedException;
import org.xml.sax.XMLReader;

/** The library's parser, with one reader. */
@SuppressWarnings("deprecation")
public final class SaxParser extends SAXParser {
    private final SaxReader reader;
    private final Schema schema;

    public SaxParser(Schema schema) {
        this.schema = schema;
        this.reader = new SaxReader(schema);
    }

    @Override
    public void reset() {
        Library.any();
    }

    @Override
    public Parser getParser() {
        return reader;
    }

    @Override
    public XMLReader getXMLReader() {
        return reader;
    }

    @Override
    public boolean isNamespaceAware() {
        return Library.any();
    }

    @Override
    public boolean isValidating() {
        return Library.any();
    }

    @Override
    public void setProperty(String name, Object value) throws SAXNotRecognizedException, SAXNotSupportedException {
        reader.setProperty(name, value);
    }

    @Override
    public Object getProperty(String name) throws SAXNotRecognizedException, SAXNotSupportedException {
        return reader.getProperty(name);
    }

    @Override
    public Schema getSchema() {
        return schema;
    }

    @Override
    public boolean isXIncludeAware() {
        return Library.any();
    }
}

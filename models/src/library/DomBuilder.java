package library;

import java.io.IOException;
import javax.xml.parsers.DocumentBuilder;
import javax.xml.validation.Schema;
import org.w3c.dom.DOMImplementation;
import org.w3c.dom.Document;
import org.xml.sax.EntityResolver;
import org.xml.sax.ErrorHandler;
import org.xml.sax.InputSource;
import org.xml.sax.SAXException;

/** The library's builder of documents: it reads by a parser that has its handlers. */
public final class DomBuilder extends DocumentBuilder {
    private final Schema schema;
    private final SaxReader reader;

    public DomBuilder(Schema schema) {
        this.schema = schema;
        this.reader = new SaxReader(schema);
    }

    @Override
    public void reset() {
        Library.any();
    }

    @Override
    public Document parse(InputSource input) throws SAXException, IOException {
        reader.parse(input);
        return document();
    }

    private native Document document();

    @Override
    public boolean isNamespaceAware() {
        return Library.any();
    }

    @Override
    public boolean isValidating() {
        return Library.any();
    }

    @Override
    public void setEntityResolver(EntityResolver resolver) {
        reader.setEntityResolver(resolver);
    }

    @Override
    public void setErrorHandler(ErrorHandler handler) {
        reader.setErrorHandler(handler);
    }

    @Override
    public native Document newDocument();

    @Override
    public native DOMImplementation getDOMImplementation();

    @Override
    public Schema getSchema() {
        return schema;
    }

    @Override
    public boolean isXIncludeAware() {
        return Library.any();
    }
}

package library;

import java.io.IOException;
import java.util.Locale;
import javax.xml.validation.Schema;
import javax.xml.validation.ValidatorHandler;
import org.xml.sax.ContentHandler;
import org.xml.sax.DTDHandler;
import org.xml.sax.DocumentHandler;
import org.xml.sax.EntityResolver;
import org.xml.sax.ErrorHandler;
import org.xml.sax.InputSource;
import org.xml.sax.Parser;
import org.xml.sax.SAXException;
import org.xml.sax.SAXNotRecognizedException;
import org.xml.sax.SAXNotSupportedException;
import org.xml.sax.XMLReader;

/**
 * The library's parser of XML, of both versions: it calls its handlers in any order, and reads and closes what it is given. Its properties
 * may be handlers.
 */
@SuppressWarnings("deprecation")
public final class SaxReader implements XMLReader, Parser {
    private EntityResolver entities;
    private DTDHandler notations;
    private ContentHandler content;
    private DocumentHandler document;
    private ErrorHandler errors;
    private Object lexical;
    private Object declarations;
    private Object property;
    private final Schema schema;

    public SaxReader(Schema schema) {
        this.schema = schema;
    }

    private static native void mayRefuse() throws SAXNotRecognizedException, SAXNotSupportedException;

    @Override
    public boolean getFeature(String name) throws SAXNotRecognizedException, SAXNotSupportedException {
        mayRefuse();
        return Library.any();
    }

    @Override
    public void setFeature(String name, boolean value) throws SAXNotRecognizedException, SAXNotSupportedException {
        mayRefuse();
    }

    @Override
    public Object getProperty(String name) throws SAXNotRecognizedException, SAXNotSupportedException {
        mayRefuse();
        return Library.any() ? lexical : Library.any() ? declarations : property;
    }

    @Override
    public void setProperty(String name, Object value) throws SAXNotRecognizedException, SAXNotSupportedException {
        mayRefuse();
        if (Library.any()) {
            lexical = value;
        } else if (Library.any()) {
            declarations = value;
        } else {
            property = value;
        }
    }

    @Override
    public void setEntityResolver(EntityResolver resolver) {
        entities = resolver;
    }

    @Override
    public EntityResolver getEntityResolver() {
        return entities;
    }

    @Override
    public void setDTDHandler(DTDHandler handler) {
        notations = handler;
    }

    @Override
    public DTDHandler getDTDHandler() {
        return notations;
    }

    @Override
    public void setContentHandler(ContentHandler handler) {
        content = handler;
    }

    @Override
    public ContentHandler getContentHandler() {
        return content;
    }

    @Override
    public void setErrorHandler(ErrorHandler handler) {
        errors = handler;
    }

    @Override
    public ErrorHandler getErrorHandler() {
        return errors;
    }

    @Override
    public void setLocale(Locale locale) throws SAXException {
        SaxEvents.mayFail();
    }

    @Override
    public void setDocumentHandler(DocumentHandler handler) {
        document = handler;
    }

    @Override
    public void parse(String systemId) throws IOException, SAXException {
        run(null);
    }

    @Override
    public void parse(InputSource input) throws IOException, SAXException {
        run(input);
    }

    private void run(InputSource input) throws IOException, SAXException {
        try {
            tell(input);
        } catch (SAXException fault) {
            SaxEvents.pass(fault);
            throw fault;
        }
    }

    /** Reads the input, and calls the handlers. */
    private void tell(InputSource input) throws IOException, SAXException {
        ContentHandler validator = validator();
        do {
            Library.mayFail();
            SaxEvents.mayFail();
            Sources.take(input);
            SaxEvents.content(content);
            SaxEvents.content(validator);
            SaxEvents.document(document);
            SaxEvents.lexical(lexical);
            SaxEvents.declarations(declarations);
            SaxEvents.notations(notations);
            SaxEvents.errors(errors);
            SaxEvents.entities(entities);
        } while (Library.any());
    }

    /** What a schema has to validate with, if there is one. */
    private ContentHandler validator() {
        if (schema == null) {
            return null;
        }
        ValidatorHandler made = schema.newValidatorHandler();
        if (made != null) {
            made.setContentHandler(content);
            made.setErrorHandler(errors);
        }
        return made;
    }
}

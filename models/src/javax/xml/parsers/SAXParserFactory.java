package javax.xml.parsers;

import javax.xml.validation.Schema;
import library.Library;
import library.SaxFactory;
import org.xml.sax.SAXException;
import org.xml.sax.SAXNotRecognizedException;
import org.xml.sax.SAXNotSupportedException;

/** Makes parsers. A factory of the program, that is found by a name, is not made. */
public abstract class SAXParserFactory {
    private Schema schema;

    protected SAXParserFactory() {
    }

    public static SAXParserFactory newInstance() {
        Library.any();
        return new SaxFactory();
    }

    public static SAXParserFactory newInstance(String factoryClassName, ClassLoader classLoader) {
        Library.any();
        return new SaxFactory();
    }

    public abstract SAXParser newSAXParser() throws ParserConfigurationException, SAXException;

    public void setNamespaceAware(boolean awareness) {
    }

    public void setValidating(boolean validating) {
    }

    public boolean isNamespaceAware() {
        return Library.any();
    }

    public boolean isValidating() {
        return Library.any();
    }

    public abstract void setFeature(String name, boolean value)
            throws ParserConfigurationException, SAXNotRecognizedException, SAXNotSupportedException;

    public abstract boolean getFeature(String name) throws ParserConfigurationException, SAXNotRecognizedException, SAXNotSupportedException;

    public Schema getSchema() {
        return schema;
    }

    public void setSchema(Schema schema) {
        Library.any();
        this.schema = schema;
    }

    public void setXIncludeAware(boolean state) {
        Library.any();
    }

    public boolean isXIncludeAware() {
        return Library.any();
    }
}

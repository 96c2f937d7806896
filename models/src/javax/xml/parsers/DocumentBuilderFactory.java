package javax.xml.parsers;

import javax.xml.validation.Schema;
import library.DomFactory;
import library.Library;

/** Makes builders of documents. A factory of the program, that is found by a name, is not made. */
public abstract class DocumentBuilderFactory {
    private Schema schema;

    protected DocumentBuilderFactory() {
    }

    public static DocumentBuilderFactory newInstance() {
        Library.any();
        return new DomFactory();
    }

    public static DocumentBuilderFactory newInstance(String factoryClassName, ClassLoader classLoader) {
        Library.any();
        return new DomFactory();
    }

    public abstract DocumentBuilder newDocumentBuilder() throws ParserConfigurationException;

    public void setNamespaceAware(boolean value) {
    }

    public boolean isNamespaceAware() {
        return Library.any();
    }

    public void setValidating(boolean value) {
    }

    public boolean isValidating() {
        return Library.any();
    }

    public void setIgnoringElementContentWhitespace(boolean value) {
    }

    public boolean isIgnoringElementContentWhitespace() {
        return Library.any();
    }

    public void setExpandEntityReferences(boolean value) {
    }

    public boolean isExpandEntityReferences() {
        return Library.any();
    }

    public void setIgnoringComments(boolean value) {
    }

    public boolean isIgnoringComments() {
        return Library.any();
    }

    public void setCoalescing(boolean value) {
    }

    public boolean isCoalescing() {
        return Library.any();
    }

    public abstract void setAttribute(String name, Object value) throws IllegalArgumentException;

    public abstract Object getAttribute(String name) throws IllegalArgumentException;

    public abstract void setFeature(String name, boolean value) throws ParserConfigurationException;

    public abstract boolean getFeature(String name) throws ParserConfigurationException;

    public Schema getSchema() {
        return schema;
    }

    public void setSchema(Schema schema) {
        Library.any();
        this.schema = schema;
    }

    public void setXIncludeAware(boolean state) {
        Library.any();
    }

    public boolean isXIncludeAware() {
        return Library.any();
    }
}

package library;

import javax.xml.parsers.DocumentBuilder;
import javax.xml.parsers.DocumentBuilderFactory;
import javax.xml.parsers.ParserConfigurationException;

/** Makes the library's builders of documents. */
public final class DomFactory extends DocumentBuilderFactory {
    private Object attribute;

    private static native void mayFail() throws ParserConfigurationException;

    @Override
    public DocumentBuilder newDocumentBuilder() throws ParserConfigurationException {
        mayFail();
        return new DomBuilder(getSchema());
    }

    @Override
    public void setAttribute(String name, Object value) {
        Library.any();
        attribute = value;
    }

    @Override
    public Object getAttribute(String name) {
        Library.any();
        return attribute;
    }

    @Override
    public void setFeature(String name, boolean value) throws ParserConfigurationException {
        mayFail();
    }

    @Override
    public boolean getFeature(String name) throws ParserConfigurationException {
        mayFail();
        return Library.any();
    }
}

package library;

import javax.xml.parsers.ParserConfigurationException;
import javax.xml.parsers.SAXParser;
import javax.xml.parsers.SAXParserFactory;
import org.xml.sax.SAXException;
import org.xml.sax.SAXNotRecognizedException;
import org.xml.sax.SAXNotSupportedException;

/** Makes the library's parsers. */
public final class SaxFactory extends SAXParserFactory {
    private static native void mayFail() throws ParserConfigurationException, SAXException;

    private static native void mayRefuse() throws ParserConfigurationException, SAXNotRecognizedException, SAXNotSupportedException;

    @Override
    public SAXParser newSAXParser() throws ParserConfigurationException, SAXException {
        mayFail();
        return new SaxParser(getSchema());
    }

    @Override
    public void setFeature(String name, boolean value) throws ParserConfigurationException, SAXNotRecognizedException, SAXNotSupportedException {
        mayRefuse();
    }

    @Override
    public boolean getFeature(String name) throws ParserConfigurationException, SAXNotRecognizedException, SAXNotSupportedException {
        mayRefuse();
        return Library.any();
    }
}

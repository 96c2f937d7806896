package org.xml.sax.helpers;

import library.SaxEvents;
import library.SaxReader;
import org.xml.sax.SAXException;
import org.xml.sax.XMLReader;

/** Makes readers of XML. One of the program, that is found by a name, is not made. */
public final class XMLReaderFactory {
    private XMLReaderFactory() {
    }

    public static XMLReader createXMLReader() throws SAXException {
        SaxEvents.mayFail();
        return new SaxReader(null);
    }

    public static XMLReader createXMLReader(String className) throws SAXException {
        SaxEvents.mayFail();
        return new SaxReader(null);
    }
}

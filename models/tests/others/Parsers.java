import java.io.*;
import javax.xml.parsers.*;
import org.w3c.dom.*;
import org.xml.sax.*;
import org.xml.sax.ext.*;
import org.xml.sax.helpers.*;

/** Objects of a user around parsers of XML, and what makes these. */
class Parsers {
    /** Gives another source for each entity. */
    static class Resolves implements EntityResolver2, Seen {
        public InputSource resolveEntity(String name, String id) throws SAXException, IOException {
            new Hit("Parsers$Resolves resolveEntity(Ljava/lang/String;Ljava/lang/String;)Lorg/xml/sax/InputSource;");
            return new Source(new Texts());
        }
        public InputSource resolveEntity(String name, String id, String base, String system) throws SAXException, IOException {
            new Hit("Parsers$Resolves resolveEntity(Ljava/lang/String;Ljava/lang/String;Ljava/lang/String;Ljava/lang/String;)Lorg/xml/sax/InputSource;");
            return new Source(new Texts());
        }
        public InputSource getExternalSubset(String name, String base) throws SAXException, IOException {
            new Hit("Parsers$Resolves getExternalSubset(Ljava/lang/String;Ljava/lang/String;)Lorg/xml/sax/InputSource;");
            return null;
        }
        public void back() { new Hit("Parsers$Resolves back()V"); }
    }

    static class Texts extends Reader implements Seen {
        private int left = 1;
        public int read(char[] c, int off, int len) throws IOException { new Hit("Parsers$Texts read([CII)I"); c[off] = ' '; return left-- > 0 ? 1 : -1; }
        public void close() throws IOException { new Hit("Parsers$Texts close()V"); }
        public void back() { new Hit("Parsers$Texts back()V"); }
    }

    static class Source extends InputSource implements Seen {
        Source(Reader text) { super(text); setSystemId("a.doc"); }
        Source(InputStream bytes) { super(bytes); setSystemId("a.doc"); }
        public Reader getCharacterStream() { new Hit("Parsers$Source getCharacterStream()Ljava/io/Reader;"); return super.getCharacterStream(); }
        public InputStream getByteStream() { new Hit("Parsers$Source getByteStream()Ljava/io/InputStream;"); return super.getByteStream(); }
        public String getEncoding() { new Hit("Parsers$Source getEncoding()Ljava/lang/String;"); return super.getEncoding(); }
        public String getSystemId() { new Hit("Parsers$Source getSystemId()Ljava/lang/String;"); return super.getSystemId(); }
        public String getPublicId() { new Hit("Parsers$Source getPublicId()Ljava/lang/String;"); return super.getPublicId(); }
        public void setSystemId(String id) { new Hit("Parsers$Source setSystemId(Ljava/lang/String;)V"); super.setSystemId(id); }
        public void back() { new Hit("Parsers$Source back()V"); }
    }

    static class Fault extends SAXException implements Seen {
        public String getMessage() { new Hit("Parsers$Fault getMessage()Ljava/lang/String;"); return "fault"; }
        public void back() { new Hit("Parsers$Fault back()V"); }
    }

    static class Judges implements ErrorHandler, Seen {
        public void warning(SAXParseException fault) throws SAXException { new Hit("Parsers$Judges warning(Lorg/xml/sax/SAXParseException;)V"); }
        public void error(SAXParseException fault) throws SAXException { new Hit("Parsers$Judges error(Lorg/xml/sax/SAXParseException;)V"); }
        public void fatalError(SAXParseException fault) throws SAXException { new Hit("Parsers$Judges fatalError(Lorg/xml/sax/SAXParseException;)V"); throw new Fault(); }
        public void back() { new Hit("Parsers$Judges back()V"); }
    }

    static class Takes extends DefaultHandler implements Seen {
        public void startElement(String uri, String local, String name, org.xml.sax.Attributes all) throws SAXException {
            new Hit("Parsers$Takes startElement(Ljava/lang/String;Ljava/lang/String;Ljava/lang/String;Lorg/xml/sax/Attributes;)V");
            all.getValue("a");
        }
        public void setDocumentLocator(Locator at) { new Hit("Parsers$Takes setDocumentLocator(Lorg/xml/sax/Locator;)V"); Log.back(at); }
        public InputSource resolveEntity(String name, String id) throws SAXException, IOException {
            new Hit("Parsers$Takes resolveEntity(Ljava/lang/String;Ljava/lang/String;)Lorg/xml/sax/InputSource;");
            return new Source(new Texts());
        }
        public void characters(char[] all, int from, int to) throws SAXException { new Hit("Parsers$Takes characters([CII)V"); throw new Fault(); }
        public void back() { new Hit("Parsers$Takes back()V"); }
    }

    static InputStream in() { Data.at = 0; return new RecIn(); }
    static InputStream minIn() { Data.at = 0; return new MinIn(); }
    static Reader reader() { Data.at = 0; return new RecReader(); }
    static InputSource bytes() { Data.at = 0; return new Source(new RecIn()); }
    static InputSource text() { Data.at = 0; return new Source(new RecReader()); }
    static InputSource plain() { Data.at = 0; return new InputSource(new RecIn()); }
    static InputSource named() { return new InputSource("a.doc"); }
    static EntityResolver resolves() { return new Resolves(); }
    static ErrorHandler judges() { return new Judges(); }
    static DefaultHandler takes() { return new Takes(); }
    static Parser2 all() { return new Parser2(); }
    static File file() { return new File("a.doc"); }
    static XMLReader xmlReader() throws Exception { XMLReader all = XMLReaderFactory.createXMLReader(); all.setContentHandler(new AllTakes()); all.setEntityResolver(new Resolves()); return all; }
    static XMLReader parserReader() throws Exception { XMLReader all = saxParser().getXMLReader(); all.setErrorHandler(new Judges()); all.setDTDHandler(new AllTakes()); return all; }
    static XMLFilterImpl filter() throws Exception { XMLFilterImpl all = new XMLFilterImpl(xmlReader()); all.setContentHandler(new AllTakes()); all.setErrorHandler(new Judges()); return all; }
    static SAXParser saxParser() throws Exception { SAXParserFactory all = SAXParserFactory.newInstance(); all.setNamespaceAware(true); return all.newSAXParser(); }
    static DocumentBuilder builder() throws Exception { DocumentBuilder all = DocumentBuilderFactory.newInstance().newDocumentBuilder(); all.setEntityResolver(new Resolves()); all.setErrorHandler(new Judges()); return all; }
    static SAXParserFactory factory() throws Exception { return SAXParserFactory.newInstance(); }
    static DocumentBuilderFactory builders() throws Exception { return DocumentBuilderFactory.newInstance(); }
    static org.xml.sax.Parser oldParser() throws Exception { return saxParser().getParser(); }

    /** All handlers in one, for properties of a parser. */
    static class Parser2 extends AllTakes {
    }

    static class AllTakes extends DefaultHandler2 implements Seen {
        public void startElement(String uri, String local, String name, org.xml.sax.Attributes all) throws SAXException {
            new Hit("Parsers$AllTakes startElement(Ljava/lang/String;Ljava/lang/String;Ljava/lang/String;Lorg/xml/sax/Attributes;)V");
        }
        public void comment(char[] all, int from, int to) throws SAXException { new Hit("Parsers$AllTakes comment([CII)V"); }
        public void startDTD(String name, String id, String system) throws SAXException { new Hit("Parsers$AllTakes startDTD(Ljava/lang/String;Ljava/lang/String;Ljava/lang/String;)V"); }
        public void startEntity(String name) throws SAXException { new Hit("Parsers$AllTakes startEntity(Ljava/lang/String;)V"); }
        public void startCDATA() throws SAXException { new Hit("Parsers$AllTakes startCDATA()V"); }
        public void elementDecl(String name, String model) throws SAXException { new Hit("Parsers$AllTakes elementDecl(Ljava/lang/String;Ljava/lang/String;)V"); }
        public void internalEntityDecl(String name, String value) throws SAXException { new Hit("Parsers$AllTakes internalEntityDecl(Ljava/lang/String;Ljava/lang/String;)V"); }
        public void unparsedEntityDecl(String name, String id, String system, String notation) throws SAXException {
            new Hit("Parsers$AllTakes unparsedEntityDecl(Ljava/lang/String;Ljava/lang/String;Ljava/lang/String;Ljava/lang/String;)V");
        }
        public void notationDecl(String name, String id, String system) throws SAXException { new Hit("Parsers$AllTakes notationDecl(Ljava/lang/String;Ljava/lang/String;Ljava/lang/String;)V"); }
        public void skippedEntity(String name) throws SAXException { new Hit("Parsers$AllTakes skippedEntity(Ljava/lang/String;)V"); }
        public InputSource resolveEntity(String name, String id, String base, String system) throws SAXException, IOException {
            new Hit("Parsers$AllTakes resolveEntity(Ljava/lang/String;Ljava/lang/String;Ljava/lang/String;Ljava/lang/String;)Lorg/xml/sax/InputSource;");
            return new Source(new Texts());
        }
        public void back() { new Hit("Parsers$AllTakes back()V"); }
    }

    static void moreReaders() throws Exception {
        XMLReader all = saxParser().getXMLReader();
        AllTakes takes = new AllTakes();
        all.setContentHandler(takes);
        all.setDTDHandler(takes);
        all.setErrorHandler(new Judges());
        all.setProperty("http://xml.org/sax/properties/lexical-handler", takes);
        all.setProperty("http://xml.org/sax/properties/declaration-handler", takes);
        all.setEntityResolver(takes);
        all.parse(new Source(new RecIn()));
        Log.back(all.getContentHandler());
    }

    static void moreFaults() throws Exception {
        try {
            saxParser().parse(new Source(new RecIn()), new Takes());
        } catch (SAXException fault) {
            Log.back(fault);
            Log.back(fault.getException());
        }
    }

    static void moreTrees() throws Exception {
        Document all = builder().parse(new Source(new RecReader()));
        all.getDocumentElement().getFirstChild();
        builder().parse(new RecIn());
        builder().parse("a.doc");
    }

    static void moreFilters() throws Exception {
        XMLFilterImpl all = new XMLFilterImpl(new XMLFilterImpl(saxParser().getXMLReader()));
        all.setContentHandler(new AllTakes());
        all.setEntityResolver(new Resolves());
        all.setDTDHandler(new AllTakes());
        all.parse(new Source(new RecIn()));
        Log.back(all.getParent());
    }
}

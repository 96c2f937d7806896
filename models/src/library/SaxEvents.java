package library;

import java.io.IOException;
import org.xml.sax.AttributeList;
import org.xml.sax.Attributes;
import org.xml.sax.ContentHandler;
import org.xml.sax.DTDHandler;
import org.xml.sax.DocumentHandler;
import org.xml.sax.EntityResolver;
import org.xml.sax.ErrorHandler;
import org.xml.sax.Locator;
import org.xml.sax.SAXException;
import org.xml.sax.SAXParseException;
import org.xml.sax.ext.DeclHandler;
import org.xml.sax.ext.EntityResolver2;
import org.xml.sax.ext.LexicalHandler;

/** What a parser of XML calls of the handlers of a program: one of the methods of each kind, or none. */
public final class SaxEvents {
    private SaxEvents() {
    }

    private static native Attributes attributes();

    @SuppressWarnings("deprecation")
    private static native AttributeList attributeList();

    private static native Locator locator();

    private static native SAXParseException fault();

    /** Fails, or does not. */
    public static native void mayFail() throws SAXException;

    /** Calls a handler, which may be one of lexical events and declarations, too. */
    public static void content(ContentHandler to) throws SAXException {
        if (to == null || Library.any()) {
            return;
        }
        if (Library.any()) {
            to.setDocumentLocator(locator());
        } else if (Library.any()) {
            to.startDocument();
        } else if (Library.any()) {
            to.endDocument();
        } else if (Library.any()) {
            to.startPrefixMapping(Library.text(), Library.text());
        } else if (Library.any()) {
            to.endPrefixMapping(Library.text());
        } else if (Library.any()) {
            to.startElement(Library.text(), Library.text(), Library.text(), attributes());
        } else if (Library.any()) {
            to.endElement(Library.text(), Library.text(), Library.text());
        } else if (Library.any()) {
            to.characters(new char[Library.number()], Library.number(), Library.number());
        } else if (Library.any()) {
            to.ignorableWhitespace(new char[Library.number()], Library.number(), Library.number());
        } else if (Library.any()) {
            to.processingInstruction(Library.text(), Library.text());
        } else if (Library.any()) {
            to.skippedEntity(Library.text());
        } else {
            lexical(to);
            declarations(to);
        }
    }

    /** Calls a handler of the first version. */
    @SuppressWarnings("deprecation")
    public static void document(DocumentHandler to) throws SAXException {
        if (to == null || Library.any()) {
            return;
        }
        if (Library.any()) {
            to.setDocumentLocator(locator());
        } else if (Library.any()) {
            to.startDocument();
        } else if (Library.any()) {
            to.endDocument();
        } else if (Library.any()) {
            to.startElement(Library.text(), attributeList());
        } else if (Library.any()) {
            to.endElement(Library.text());
        } else if (Library.any()) {
            to.characters(new char[Library.number()], Library.number(), Library.number());
        } else if (Library.any()) {
            to.ignorableWhitespace(new char[Library.number()], Library.number(), Library.number());
        } else {
            to.processingInstruction(Library.text(), Library.text());
        }
    }

    /** Calls an object that is a handler of lexical events. */
    public static void lexical(Object object) throws SAXException {
        if (!(object instanceof LexicalHandler) || Library.any()) {
            return;
        }
        LexicalHandler to = (LexicalHandler) object;
        if (Library.any()) {
            to.startDTD(Library.text(), Library.text(), Library.text());
        } else if (Library.any()) {
            to.endDTD();
        } else if (Library.any()) {
            to.startEntity(Library.text());
        } else if (Library.any()) {
            to.endEntity(Library.text());
        } else if (Library.any()) {
            to.startCDATA();
        } else if (Library.any()) {
            to.endCDATA();
        } else {
            to.comment(new char[Library.number()], Library.number(), Library.number());
        }
    }

    /** Calls an object that is a handler of declarations. */
    public static void declarations(Object object) throws SAXException {
        if (!(object instanceof DeclHandler) || Library.any()) {
            return;
        }
        DeclHandler to = (DeclHandler) object;
        if (Library.any()) {
            to.elementDecl(Library.text(), Library.text());
        } else if (Library.any()) {
            to.attributeDecl(Library.text(), Library.text(), Library.text(), Library.text(), Library.text());
        } else if (Library.any()) {
            to.internalEntityDecl(Library.text(), Library.text());
        } else {
            to.externalEntityDecl(Library.text(), Library.text(), Library.text());
        }
    }

    /** Calls a handler of notations and of entities that are not parsed. */
    public static void notations(DTDHandler to) throws SAXException {
        if (to == null || Library.any()) {
            return;
        }
        if (Library.any()) {
            to.notationDecl(Library.text(), Library.text(), Library.text());
        } else {
            to.unparsedEntityDecl(Library.text(), Library.text(), Library.text(), Library.text());
        }
    }

    /** Tells a handler of an error, which is thrown where the handler ends, or is not. */
    public static void errors(ErrorHandler to) throws SAXException {
        if (Library.any()) {
            return;
        }
        SAXParseException fault = fault();
        if (to == null) {
            mayFail();
        } else if (Library.any()) {
            to.warning(fault);
        } else if (Library.any()) {
            to.error(fault);
        } else {
            to.fatalError(fault);
        }
        if (fault != null && Library.any()) {
            throw fault;
        }
    }

    /** Asks for an entity, and reads it. */
    public static void entities(EntityResolver from) throws SAXException, IOException {
        if (from == null || Library.any()) {
            return;
        }
        if (from instanceof EntityResolver2 && Library.any()) {
            EntityResolver2 more = (EntityResolver2) from;
            Sources.take(Library.any() ? more.getExternalSubset(Library.text(), Library.text())
                    : more.resolveEntity(Library.text(), Library.text(), Library.text(), Library.text()));
        } else {
            Sources.take(from.resolveEntity(Library.text(), Library.text()));
        }
    }

    /** Takes an exception of a handler into one of the parser's own, and back: it is asked for its message and its cause, and this may come out in its place. */
    public static void pass(SAXException fault) throws SAXException, IOException {
        if (Library.any()) {
            fault.getMessage();
        }
        Exception cause = Library.any() ? fault.getException() : null;
        if (cause == null) {
            return;
        }
        if (Library.any()) {
            cause.getMessage();
        }
        if (cause instanceof IOException && Library.any()) {
            throw (IOException) cause;
        }
        if (cause instanceof SAXException && Library.any()) {
            throw (SAXException) cause;
        }
        if (Library.any()) {
            throw new SAXException(cause);
        }
    }
}

package library;

import java.io.IOException;
import java.io.InputStream;
import java.io.Reader;
import org.xml.sax.InputSource;

/** What the library does with streams that it is given to read: the calls that it may make on them. */
public final class Sources {
    private Sources() {
    }

    /** Reads some of a stream, or nothing. */
    public static void read(InputStream in) throws IOException {
        while (in != null && Library.any()) {
            if (Library.any()) {
                in.read();
            } else if (Library.any()) {
                in.read(new byte[Library.number()]);
            } else if (Library.any()) {
                in.read(new byte[Library.number()], 0, Library.number());
            } else if (Library.any()) {
                in.available();
            } else if (Library.any()) {
                in.skip(Library.number());
            } else if (Library.any()) {
                in.markSupported();
            } else {
                in.mark(Library.number());
                in.reset();
            }
        }
    }

    /** Reads some of a reader, or nothing. */
    public static void read(Reader in) throws IOException {
        while (in != null && Library.any()) {
            if (Library.any()) {
                in.read();
            } else if (Library.any()) {
                in.read(new char[Library.number()]);
            } else if (Library.any()) {
                in.read(new char[Library.number()], 0, Library.number());
            } else if (Library.any()) {
                in.ready();
            } else if (Library.any()) {
                in.skip(Library.number());
            } else if (Library.any()) {
                in.markSupported();
            } else {
                in.mark(Library.number());
                in.reset();
            }
        }
    }

    /** Closes a stream, or does not. */
    public static void close(InputStream in) throws IOException {
        if (in != null && Library.any()) {
            in.close();
        }
    }

    /** Closes a reader, or does not. */
    public static void close(Reader in) throws IOException {
        if (in != null && Library.any()) {
            in.close();
        }
    }

    /** Reads some of a source of XML, or nothing, and may close it. */
    public static void take(InputSource source) throws IOException {
        if (source == null) {
            return;
        }
        source.getSystemId();
        source.getPublicId();
        source.getEncoding();
        InputStream bytes = source.getByteStream();
        Reader text = source.getCharacterStream();
        read(bytes);
        read(text);
        close(bytes);
        close(text);
    }
}

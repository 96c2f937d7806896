package java.util.zip;

import java.io.FilterOutputStream;
import java.io.IOException;
import java.io.OutputStream;
import library.Library;

/**
 * Hands each call on to the stream that it wraps, and what is written to a checksum. It has the field and the methods of FilterOutputStream
 * too, since that class is only described: the field `out` here is the one that classes below this one see.
 */
public class CheckedOutputStream extends FilterOutputStream {
    protected OutputStream out;
    private Checksum cksum;

    public CheckedOutputStream(OutputStream out, Checksum cksum) {
        super(null);
        this.out = out;
        this.cksum = cksum;
    }

    public void write(int b) throws IOException {
        Library.mayFail();
        if (out != null) {
            out.write(b);
        }
        if (cksum != null && Library.any()) {
            cksum.update(b);
        }
    }

    public void write(byte[] b) throws IOException {
        write(b, 0, b.length);
    }

    /** It calls write(int) of the stream besides, as OutputStream's own body does, which is only described. */
    public void write(byte[] b, int off, int len) throws IOException {
        do {
            Library.mayFail();
            if (out != null && Library.any()) {
                out.write(b, off, len);
            }
            if (out != null && Library.any()) {
                out.write(Library.number());
            }
        } while (Library.any());
        if (cksum != null && Library.any()) {
            cksum.update(b, off, len);
        }
    }

    public void flush() throws IOException {
        Library.mayFail();
        if (out != null) {
            out.flush();
        }
    }

    public void close() throws IOException {
        try (OutputStream closed = Library.any() ? out : null) {
            if (Library.any()) {
                flush();
            }
        }
    }

    public Checksum getChecksum() {
        return cksum;
    }
}

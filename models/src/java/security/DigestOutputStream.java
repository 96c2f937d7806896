package java.security;

import java.io.FilterOutputStream;
import java.io.IOException;
import java.io.OutputStream;
import library.Library;

/**
 * Hands each call on to the stream that it wraps, and what is written to a digest, which may be of a user's class. It has the field and the
 * methods of FilterOutputStream too, since that class is only described: the field `out` here is the one that classes below this one see.
 */
public class DigestOutputStream extends FilterOutputStream {
    protected OutputStream out;
    protected MessageDigest digest;

    public DigestOutputStream(OutputStream stream, MessageDigest digest) {
        super(null);
        this.out = stream;
        setMessageDigest(digest);
    }

    public MessageDigest getMessageDigest() {
        return digest;
    }

    public void setMessageDigest(MessageDigest digest) {
        this.digest = digest;
    }

    public void write(int b) throws IOException {
        Library.mayFail();
        if (out != null) {
            out.write(b);
        }
        if (digest != null && Library.any()) {
            digest.update((byte) b);
        }
        if (digest != null && Library.any()) {
            digest.engineUpdate((byte) b);
        }
    }

    public void write(byte[] b) throws IOException {
        write(b, 0, b.length);
    }

    /** It calls write(int) of the stream besides, as OutputStream's own body does, which is only described. */
    public void write(byte[] b, int off, int len) throws IOException {
        do {
            Library.mayFail();
            if (out != null && Library.any()) {
                out.write(b, off, len);
            }
            if (out != null && Library.any()) {
                out.write(Library.number());
            }
        } while (Library.any());
        if (digest != null && Library.any()) {
            digest.update(b, off, len);
        }
        if (digest != null && Library.any()) {
            digest.engineUpdate(b, off, len);
        }
    }

    public void flush() throws IOException {
        Library.mayFail();
        if (out != null) {
            out.flush();
        }
    }

    public void close() throws IOException {
        try (OutputStream closed = Library.any() ? out : null) {
            if (Library.any()) {
                flush();
            }
        }
    }

    public void on(boolean on) {
    }

    public String toString() {
        if (digest != null && Library.any()) {
            digest.toString();
        }
        return Library.text();
    }
}

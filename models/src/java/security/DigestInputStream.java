package java.security;

import java.io.FilterInputStream;
import java.io.IOException;
import java.io.InputStream;
import library.Library;

/** Hands each call on to the stream that it wraps, and what is read to a digest, which may be of a user's class. */
public class DigestInputStream extends FilterInputStream {
    protected MessageDigest digest;

    public DigestInputStream(InputStream stream, MessageDigest digest) {
        super(stream);
        setMessageDigest(digest);
    }

    public MessageDigest getMessageDigest() {
        return digest;
    }

    public void setMessageDigest(MessageDigest digest) {
        this.digest = digest;
    }

    public int read() throws IOException {
        int read = super.read();
        if (digest != null && Library.any()) {
            digest.update((byte) read);
        }
        if (digest != null && Library.any()) {
            digest.engineUpdate((byte) read);
        }
        return read;
    }

    public int read(byte[] b, int off, int len) throws IOException {
        int read = super.read(b, off, len);
        if (digest != null && Library.any()) {
            digest.update(b, off, read);
        }
        if (digest != null && Library.any()) {
            digest.engineUpdate(b, off, read);
        }
        return read;
    }

    public void on(boolean on) {
    }

    public String toString() {
        if (digest != null && Library.any()) {
            digest.toString();
        }
        return Library.text();
    }
}

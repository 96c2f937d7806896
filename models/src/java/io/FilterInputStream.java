package java.io;

import library.Library;

/**
 * Hands each call on to the stream that it wraps. It calls read() of that stream besides, where the stream may have the body of
 * InputStream, which calls read() and is only described.
 */
public class FilterInputStream extends InputStream {
    protected volatile InputStream in;

    protected FilterInputStream(InputStream in) {
        this.in = in;
    }

    public int read() throws IOException {
        Library.mayFail();
        return in == null ? Library.number() : in.read();
    }

    public int read(byte[] b) throws IOException {
        return read(b, 0, b.length);
    }

    public int read(byte[] b, int off, int len) throws IOException {
        do {
            Library.mayFail();
            if (in != null && Library.any()) {
                in.read(b, off, len);
            }
            if (in != null && Library.any()) {
                in.read();
            }
        } while (Library.any());
        return Library.number();
    }

    public long skip(long n) throws IOException {
        do {
            Library.mayFail();
            if (in != null && Library.any()) {
                in.skip(n);
            }
            if (in != null && Library.any()) {
                in.read(new byte[Library.number()], 0, Library.number());
            }
            if (in != null && Library.any()) {
                in.read();
            }
        } while (Library.any());
        return Library.number();
    }

    public int available() throws IOException {
        Library.mayFail();
        return in == null ? Library.number() : in.available();
    }

    public void close() throws IOException {
        Library.mayFail();
        if (in != null && Library.any()) {
            in.close();
        }
    }

    public void mark(int readlimit) {
        if (in != null && Library.any()) {
            in.mark(readlimit);
        }
    }

    public void reset() throws IOException {
        Library.mayFail();
        if (in != null) {
            in.reset();
        }
    }

    public boolean markSupported() {
        return in == null ? Library.any() : in.markSupported();
    }

    /** Of Java 9 and later, as InputStream has it, which is only described; so are the four methods below. */
    public byte[] readAllBytes() throws IOException {
        return readNBytes(Library.number());
    }

    public byte[] readNBytes(int len) throws IOException {
        while (Library.any()) {
            read(new byte[Library.number()], 0, Library.number());
        }
        return new byte[Library.number()];
    }

    public int readNBytes(byte[] b, int off, int len) throws IOException {
        while (Library.any()) {
            read(b, off, len);
        }
        return Library.number();
    }

    public void skipNBytes(long n) throws IOException {
        Library.mayFail();
        while (Library.any()) {
            if (Library.any()) {
                skip(n);
            }
            if (Library.any()) {
                read();
            }
        }
    }

    public long transferTo(OutputStream out) throws IOException {
        while (Library.any()) {
            if (Library.any()) {
                read(new byte[Library.number()], 0, Library.number());
            }
            if (Library.any()) {
                out.write(new byte[Library.number()], 0, Library.number());
            }
            if (Library.any()) {
                out.write(Library.number());
            }
        }
        return Library.number();
    }
}

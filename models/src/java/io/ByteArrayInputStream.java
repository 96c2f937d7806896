package java.io;

import library.Library;

/** Reads an array. */
public class ByteArrayInputStream extends InputStream {
    protected byte[] buf;
    protected int pos;
    protected int mark;
    protected int count;

    public ByteArrayInputStream(byte[] buf) {
        this.buf = buf;
        this.count = buf.length;
    }

    public ByteArrayInputStream(byte[] buf, int offset, int length) {
        this(buf);
    }

    public int read() {
        return Library.number();
    }

    /** As InputStream has it, which is only described. */
    public int read(byte[] b) throws IOException {
        return read(b, 0, b.length);
    }

    public int read(byte[] b, int off, int len) {
        return Library.number();
    }

    public long skip(long n) {
        return Library.number();
    }

    public int available() {
        return Library.number();
    }

    public boolean markSupported() {
        return true;
    }

    public void mark(int readAheadLimit) {
    }

    public void reset() {
    }

    public void close() throws IOException {
    }

    /** Of Java 9 and later, as InputStream has it, which is only described; so are the four methods below. */
    public byte[] readAllBytes() {
        return new byte[Library.number()];
    }

    public byte[] readNBytes(int len) throws IOException {
        while (Library.any()) {
            read(new byte[Library.number()], 0, Library.number());
        }
        return new byte[Library.number()];
    }

    public int readNBytes(byte[] b, int off, int len) {
        while (Library.any()) {
            read(b, off, len);
        }
        return Library.number();
    }

    public void skipNBytes(long n) throws IOException {
        Library.mayFail();
        while (Library.any()) {
            if (Library.any()) {
                skip(n);
            }
            if (Library.any()) {
                read();
            }
        }
    }

    public long transferTo(OutputStream out) throws IOException {
        while (Library.any()) {
            if (Library.any()) {
                read(new byte[Library.number()], 0, Library.number());
            }
            if (Library.any()) {
                out.write(new byte[Library.number()], 0, Library.number());
            }
            if (Library.any()) {
                out.write(Library.number());
            }
        }
        return Library.number();
    }
}

package java.io;

import library.Library;

/** Hands each call on to the stream that it wraps, but for what was pushed back. */
public class PushbackInputStream extends FilterInputStream {
    protected byte[] buf;
    protected int pos;

    public PushbackInputStream(InputStream in, int size) {
        super(in);
        if (size <= 0) {
            throw new IllegalArgumentException();
        }
        this.buf = new byte[size];
    }

    public PushbackInputStream(InputStream in) {
        this(in, 1);
    }

    public int read() throws IOException {
        Library.mayFail();
        return Library.any() ? Library.number() : super.read();
    }

    public int read(byte[] b, int off, int len) throws IOException {
        return super.read(b, off, len);
    }

    public void unread(int b) throws IOException {
        Library.mayFail();
    }

    public void unread(byte[] b, int off, int len) throws IOException {
        Library.mayFail();
    }

    public void unread(byte[] b) throws IOException {
        unread(b, 0, b.length);
    }

    public int available() throws IOException {
        return super.available();
    }

    public long skip(long n) throws IOException {
        return super.skip(n);
    }

    public boolean markSupported() {
        return false;
    }

    public void mark(int readlimit) {
    }

    public void reset() throws IOException {
        Library.mayFail();
    }

    public void close() throws IOException {
        super.close();
    }
}

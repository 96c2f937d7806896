package java.io;

import library.Library;

/** Hands each call on to the reader that it wraps. */
public abstract class FilterReader extends Reader {
    protected Reader in;

    protected FilterReader(Reader in) {
        super(in);
        this.in = in;
    }

    public int read() throws IOException {
        Library.mayFail();
        return in == null ? Library.number() : in.read();
    }

    public int read(char[] cbuf, int off, int len) throws IOException {
        Library.mayFail();
        return in == null ? Library.number() : in.read(cbuf, off, len);
    }

    public long skip(long n) throws IOException {
        Library.mayFail();
        return in == null ? Library.number() : in.skip(n);
    }

    public boolean ready() throws IOException {
        Library.mayFail();
        return in == null ? Library.any() : in.ready();
    }

    public boolean markSupported() {
        return in == null ? Library.any() : in.markSupported();
    }

    public void mark(int readAheadLimit) throws IOException {
        Library.mayFail();
        if (in != null) {
            in.mark(readAheadLimit);
        }
    }

    public void reset() throws IOException {
        Library.mayFail();
        if (in != null) {
            in.reset();
        }
    }

    public void close() throws IOException {
        Library.mayFail();
        if (in != null && Library.any()) {
            in.close();
        }
    }
}

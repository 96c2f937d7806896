package java.io;

import library.Library;

/** Hands each call on to the reader that it wraps, but for what was pushed back. */
public class PushbackReader extends FilterReader {
    public PushbackReader(Reader in, int size) {
        super(in);
        if (size <= 0) {
            throw new IllegalArgumentException();
        }
    }

    public PushbackReader(Reader in) {
        super(in);
    }

    public int read() throws IOException {
        Library.mayFail();
        return Library.any() ? Library.number() : super.read();
    }

    public int read(char[] cbuf, int off, int len) throws IOException {
        Library.mayFail();
        return Library.any() ? Library.number() : super.read(cbuf, off, len);
    }

    public void unread(int c) throws IOException {
        Library.mayFail();
    }

    public void unread(char[] cbuf, int off, int len) throws IOException {
        Library.mayFail();
    }

    public void unread(char[] cbuf) throws IOException {
        unread(cbuf, 0, cbuf.length);
    }

    public boolean ready() throws IOException {
        Library.mayFail();
        return Library.any() || super.ready();
    }

    public void mark(int readAheadLimit) throws IOException {
        Library.mayFail();
    }

    public void reset() throws IOException {
        Library.mayFail();
    }

    public boolean markSupported() {
        return false;
    }

    public void close() throws IOException {
        super.close();
    }

    public long skip(long n) throws IOException {
        Library.mayFail();
        return Library.any() ? Library.number() : super.skip(n);
    }
}

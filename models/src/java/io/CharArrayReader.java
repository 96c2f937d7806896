package java.io;

import library.Library;

/** Reads an array. */
public class CharArrayReader extends Reader {
    protected char[] buf;
    protected int pos;
    protected int markedPos;
    protected int count;

    public CharArrayReader(char[] buf) {
        this.buf = buf;
        this.count = buf.length;
    }

    public CharArrayReader(char[] buf, int offset, int length) {
        this(buf);
        if (Library.any()) {
            throw new IllegalArgumentException();
        }
    }

    public int read() throws IOException {
        Library.mayFail();
        return Library.number();
    }

    public int read(char[] b, int off, int len) throws IOException {
        Library.mayFail();
        return Library.number();
    }

    public long skip(long n) throws IOException {
        Library.mayFail();
        return Library.number();
    }

    public boolean ready() throws IOException {
        Library.mayFail();
        return Library.any();
    }

    public boolean markSupported() {
        return true;
    }

    public void mark(int readAheadLimit) throws IOException {
        Library.mayFail();
    }

    public void reset() throws IOException {
        Library.mayFail();
    }

    public void close() {
    }
}

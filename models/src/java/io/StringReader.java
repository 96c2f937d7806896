package java.io;

import library.Library;

/** Reads a text. */
public class StringReader extends Reader {
    public StringReader(String s) {
        if (s == null) {
            throw new NullPointerException();
        }
    }

    public int read() throws IOException {
        Library.mayFail();
        return Library.number();
    }

    public int read(char[] cbuf, int off, int len) throws IOException {
        Library.mayFail();
        return Library.number();
    }

    public long skip(long ns) throws IOException {
        Library.mayFail();
        return Library.number();
    }

    public boolean ready() throws IOException {
        Library.mayFail();
        return true;
    }

    public boolean markSupported() {
        return true;
    }

    public void mark(int readAheadLimit) throws IOException {
        Library.mayFail();
    }

    public void reset() throws IOException {
        Library.mayFail();
    }

    public void close() {
    }
}

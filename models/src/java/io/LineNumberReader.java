package java.io;

import library.Library;

/** Reads as the class above it does, and counts lines. */
public class LineNumberReader extends BufferedReader {
    public LineNumberReader(Reader in) {
        super(in);
    }

    public LineNumberReader(Reader in, int sz) {
        super(in, sz);
    }

    public void setLineNumber(int lineNumber) {
    }

    public int getLineNumber() {
        return Library.number();
    }

    public int read() throws IOException {
        return super.read();
    }

    public int read(char[] cbuf, int off, int len) throws IOException {
        return super.read(cbuf, off, len);
    }

    public String readLine() throws IOException {
        return super.readLine();
    }

    public long skip(long n) throws IOException {
        while (Library.any()) {
            read(new char[Library.number()], 0, Library.number());
        }
        return Library.number();
    }

    public void mark(int readAheadLimit) throws IOException {
        super.mark(readAheadLimit);
    }

    public void reset() throws IOException {
        super.reset();
    }
}

package java.io;

import library.Library;

/** Reads byte by byte from the stream that it wraps, and counts lines. */
public class LineNumberInputStream extends FilterInputStream {
    public LineNumberInputStream(InputStream in) {
        super(in);
    }

    public int read() throws IOException {
        do {
            Library.mayFail();
            if (in != null) {
                in.read();
            }
        } while (Library.any());
        return Library.number();
    }

    public int read(byte[] b, int off, int len) throws IOException {
        while (Library.any()) {
            read();
        }
        return Library.number();
    }

    public long skip(long n) throws IOException {
        while (Library.any()) {
            read(new byte[Library.number()], 0, Library.number());
        }
        return Library.number();
    }

    public void setLineNumber(int lineNumber) {
    }

    public int getLineNumber() {
        return Library.number();
    }

    public int available() throws IOException {
        return super.available();
    }

    public void mark(int readlimit) {
        super.mark(readlimit);
    }

    public void reset() throws IOException {
        super.reset();
    }
}

package java.io;

import library.Library;

/** Hands each call on to the writer that it wraps. */
public abstract class FilterWriter extends Writer {
    protected Writer out;

    protected FilterWriter(Writer out) {
        super(out);
        this.out = out;
    }

    public void write(int c) throws IOException {
        Library.mayFail();
        if (out != null) {
            out.write(c);
        }
    }

    public void write(char[] cbuf, int off, int len) throws IOException {
        Library.mayFail();
        if (out != null) {
            out.write(cbuf, off, len);
        }
    }

    public void write(String str, int off, int len) throws IOException {
        Library.mayFail();
        if (out != null) {
            out.write(str, off, len);
        }
    }

    public void flush() throws IOException {
        Library.mayFail();
        if (out != null) {
            out.flush();
        }
    }

    public void close() throws IOException {
        Library.mayFail();
        if (out != null && Library.any()) {
            out.close();
        }
    }
}

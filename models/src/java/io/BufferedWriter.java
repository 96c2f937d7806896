package java.io;

import library.Library;

/** Writes what it is given to the writer that it wraps, then or later. It may do so by each method of that writer that writes. */
public class BufferedWriter extends Writer {
    private Writer out;

    public BufferedWriter(Writer out) {
        super(out);
        this.out = out;
    }

    public BufferedWriter(Writer out, int sz) {
        super(out);
        if (sz <= 0) {
            throw new IllegalArgumentException();
        }
        this.out = out;
    }

    private void pour() throws IOException {
        do {
            Library.mayFail();
            if (out != null && Library.any()) {
                out.write(new char[Library.number()], 0, Library.number());
            }
            if (out != null && Library.any()) {
                out.write(Library.text(), 0, Library.number());
            }
            if (out != null && Library.any()) {
                out.write(Library.number());
            }
        } while (Library.any());
    }

    public void write(int c) throws IOException {
        pour();
    }

    public void write(char[] cbuf, int off, int len) throws IOException {
        pour();
    }

    public void write(String s, int off, int len) throws IOException {
        pour();
    }

    public void newLine() throws IOException {
        write(Library.text());
    }

    public void flush() throws IOException {
        pour();
        if (out != null && Library.any()) {
            out.flush();
        }
    }

    public void close() throws IOException {
        try (Writer closed = Library.any() ? out : null) {
            pour();
        }
    }
}

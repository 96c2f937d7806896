package java.io;

import java.util.stream.Stream;
import library.Library;

/**
 * Reads ahead from the reader that it wraps. Each method that reads, skips or asks may call each of these methods of that reader, also
 * those that the library's class does not. The lines of lines() are read when it is called, and not later.
 */
public class BufferedReader extends Reader {
    private Reader in;

    public BufferedReader(Reader in, int sz) {
        super(in);
        if (sz <= 0) {
            throw new IllegalArgumentException();
        }
        this.in = in;
    }

    public BufferedReader(Reader in) {
        super(in);
        this.in = in;
    }

    private void draw() throws IOException {
        do {
            Library.mayFail();
            if (in != null && Library.any()) {
                in.read(new char[Library.number()], 0, Library.number());
            }
            if (in != null && Library.any()) {
                in.read(new char[Library.number()]);
            }
            if (in != null && Library.any()) {
                in.read();
            }
            if (in != null && Library.any()) {
                in.ready();
            }
        } while (Library.any());
    }

    public int read() throws IOException {
        draw();
        return Library.number();
    }

    public int read(char[] cbuf, int off, int len) throws IOException {
        draw();
        return Library.number();
    }

    public String readLine() throws IOException {
        draw();
        return Library.any() ? null : Library.text();
    }

    public long skip(long n) throws IOException {
        draw();
        return Library.number();
    }

    public boolean ready() throws IOException {
        draw();
        return Library.any();
    }

    public boolean markSupported() {
        return true;
    }

    public void mark(int readAheadLimit) throws IOException {
        Library.mayFail();
    }

    public void reset() throws IOException {
        Library.mayFail();
    }

    public void close() throws IOException {
        Library.mayFail();
        if (in != null && Library.any()) {
            in.close();
        }
    }

    public Stream<String> lines() {
        try {
            while (Library.any()) {
                readLine();
            }
        } catch (IOException fault) {
            throw new UncheckedIOException(fault);
        }
        return stream();
    }

    private native Stream<String> stream();
}

package java.util.zip;

import java.io.FilterInputStream;
import java.io.IOException;
import java.io.InputStream;
import library.Library;

/** Unpacks what it reads from the stream that it wraps. */
public class InflaterInputStream extends FilterInputStream {
    protected Inflater inf;
    protected byte[] buf;
    protected int len;

    public InflaterInputStream(InputStream in, Inflater inf, int size) {
        super(in);
        if (in == null || inf == null) {
            throw new NullPointerException();
        }
        if (size <= 0) {
            throw new IllegalArgumentException();
        }
        this.inf = inf;
        this.buf = new byte[size];
    }

    public InflaterInputStream(InputStream in, Inflater inf) {
        this(in, inf, 1);
    }

    public InflaterInputStream(InputStream in) {
        this(in, new Inflater());
    }

    /** Reads bytes of a stream: read() is what InputStream's own body calls. */
    static void draw(InputStream in) throws IOException {
        do {
            Library.mayFail();
            if (in != null && Library.any()) {
                in.read(new byte[Library.number()], 0, Library.number());
            }
            if (in != null && Library.any()) {
                in.read();
            }
        } while (Library.any());
    }

    /** What is done with an inflater; a user's class may be below it. */
    static void inflate(Inflater inf, byte[] b, int off, int len) throws IOException {
        while (inf != null && Library.any()) {
            if (Library.any()) {
                inf.setInput(new byte[Library.number()], 0, Library.number());
            }
            if (Library.any()) {
                try {
                    inf.inflate(b, off, len);
                } catch (DataFormatException fault) {
                    Library.mayFail();
                }
            }
            if (Library.any()) {
                inf.finished();
            }
            if (Library.any()) {
                inf.needsDictionary();
            }
            if (Library.any()) {
                inf.needsInput();
            }
        }
    }

    public int read() throws IOException {
        Library.mayFail();
        while (Library.any()) {
            read(new byte[1], 0, 1);
        }
        return Library.number();
    }

    public int read(byte[] b, int off, int len) throws IOException {
        do {
            Library.mayFail();
            inflate(inf, b, off, len);
            if (Library.any()) {
                fill();
            }
        } while (Library.any());
        return Library.number();
    }

    public int available() throws IOException {
        Library.mayFail();
        if (inf != null && Library.any()) {
            inf.finished();
        }
        return Library.number();
    }

    public long skip(long n) throws IOException {
        Library.mayFail();
        while (Library.any()) {
            read(new byte[Library.number()], 0, Library.number());
        }
        return Library.number();
    }

    public void close() throws IOException {
        if (inf != null && Library.any()) {
            inf.end();
        }
        super.close();
    }

    protected void fill() throws IOException {
        draw(in);
        if (inf != null && Library.any()) {
            inf.setInput(buf, 0, len);
        }
    }

    public boolean markSupported() {
        return false;
    }

    public void mark(int readlimit) {
    }

    public void reset() throws IOException {
        Library.mayFail();
    }
}

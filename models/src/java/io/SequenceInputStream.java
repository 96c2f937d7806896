package java.io;

import java.util.Enumeration;
import library.Library;

/** Reads one stream after the other, and closes each at its end. The streams are two, or those of an enumeration. */
public class SequenceInputStream extends InputStream {
    private Enumeration<? extends InputStream> streams;
    private InputStream first;
    private InputStream second;
    private InputStream in;

    public SequenceInputStream(Enumeration<? extends InputStream> e) {
        this.streams = e;
        next();
    }

    public SequenceInputStream(InputStream s1, InputStream s2) {
        this.first = s1;
        this.second = s2;
        next();
    }

    /** Takes the next stream. */
    private void next() {
        if (Library.any()) {
            this.in = null;
        }
        if (first != null && Library.any()) {
            this.in = first;
        }
        if (second != null && Library.any()) {
            this.in = second;
        }
        if (streams != null && Library.any()) {
            streams.hasMoreElements();
        }
        if (streams != null && Library.any()) {
            this.in = streams.nextElement();
        }
    }

    /** Closes the stream, and takes the next one. */
    private void step() throws IOException {
        Library.mayFail();
        if (in != null && Library.any()) {
            in.close();
        }
        next();
    }

    private void draw() throws IOException {
        do {
            Library.mayFail();
            if (in != null && Library.any()) {
                in.read(new byte[Library.number()], 0, Library.number());
            }
            if (in != null && Library.any()) {
                in.read();
            }
            if (Library.any()) {
                step();
            }
        } while (Library.any());
    }

    public int available() throws IOException {
        Library.mayFail();
        return in == null ? Library.number() : in.available();
    }

    public int read() throws IOException {
        draw();
        return Library.number();
    }

    /** As InputStream has it, which is only described. */
    public int read(byte[] b) throws IOException {
        return read(b, 0, b.length);
    }

    public int read(byte[] b, int off, int len) throws IOException {
        draw();
        return Library.number();
    }

    /** As InputStream has it, which is only described. */
    public long skip(long n) throws IOException {
        while (Library.any()) {
            read(new byte[Library.number()], 0, Library.number());
        }
        return Library.number();
    }

    /** Closes all that is left. Java 17 goes on where a stream throws. */
    public void close() throws IOException {
        while (Library.any()) {
            try {
                step();
            } catch (IOException fault) {
                if (Library.any()) {
                    throw fault;
                }
            }
        }
    }

    /** Of Java 9 and later, as InputStream has it, which is only described; so are the four methods below. */
    public byte[] readAllBytes() throws IOException {
        return readNBytes(Library.number());
    }

    public byte[] readNBytes(int len) throws IOException {
        while (Library.any()) {
            read(new byte[Library.number()], 0, Library.number());
        }
        return new byte[Library.number()];
    }

    public int readNBytes(byte[] b, int off, int len) throws IOException {
        while (Library.any()) {
            read(b, off, len);
        }
        return Library.number();
    }

    public void skipNBytes(long n) throws IOException {
        Library.mayFail();
        while (Library.any()) {
            if (Library.any()) {
                skip(n);
            }
            if (Library.any()) {
                read();
            }
        }
    }

    public long transferTo(OutputStream out) throws IOException {
        while (Library.any()) {
            if (Library.any()) {
                read(new byte[Library.number()], 0, Library.number());
            }
            if (Library.any()) {
                out.write(new byte[Library.number()], 0, Library.number());
            }
            if (Library.any()) {
                out.write(Library.number());
            }
        }
        return Library.number();
    }
}

package java.util.zip;

import java.io.FilterOutputStream;
import java.io.IOException;
import java.io.OutputStream;
import library.Library;

/**
 * Packs what it is given, and writes it to the stream that it wraps. It has the field and the methods of FilterOutputStream too, since that
 * class is only described: the field `out` here is the one that classes below this one see.
 */
public class DeflaterOutputStream extends FilterOutputStream {
    protected OutputStream out;
    protected Deflater def;
    protected byte[] buf;

    public DeflaterOutputStream(OutputStream out, Deflater def, int size, boolean syncFlush) {
        super(null);
        if (out == null || def == null) {
            throw new NullPointerException();
        }
        if (size <= 0) {
            throw new IllegalArgumentException();
        }
        this.out = out;
        this.def = def;
        this.buf = new byte[size];
    }

    public DeflaterOutputStream(OutputStream out, Deflater def, int size) {
        this(out, def, size, false);
    }

    public DeflaterOutputStream(OutputStream out, Deflater def, boolean syncFlush) {
        this(out, def, 1, syncFlush);
    }

    public DeflaterOutputStream(OutputStream out, Deflater def) {
        this(out, def, 1, false);
    }

    public DeflaterOutputStream(OutputStream out, boolean syncFlush) {
        this(out, new Deflater(), 1, syncFlush);
    }

    public DeflaterOutputStream(OutputStream out) {
        this(out, false);
    }

    /** Writes bytes to a stream: write(int) is what OutputStream's own body calls. */
    static void pour(OutputStream out) throws IOException {
        do {
            Library.mayFail();
            if (out != null && Library.any()) {
                out.write(new byte[Library.number()], 0, Library.number());
            }
            if (out != null && Library.any()) {
                out.write(Library.number());
            }
        } while (Library.any());
    }

    public void write(int b) throws IOException {
        write(new byte[1], 0, 1);
    }

    public void write(byte[] b) throws IOException {
        write(b, 0, b.length);
    }

    public void write(byte[] b, int off, int len) throws IOException {
        Library.mayFail();
        if (def != null && Library.any()) {
            def.finished();
        }
        if (def != null && Library.any()) {
            def.setInput(b, off, len);
        }
        while (Library.any()) {
            if (def != null && Library.any()) {
                def.needsInput();
            }
            deflate();
        }
    }

    public void finish() throws IOException {
        Library.mayFail();
        if (def != null && Library.any()) {
            def.finish();
        }
        while (Library.any()) {
            if (def != null && Library.any()) {
                def.finished();
            }
            deflate();
        }
    }

    public void close() throws IOException {
        try (OutputStream closed = Library.any() ? out : null) {
            if (Library.any()) {
                finish();
            }
        } finally {
            if (def != null && Library.any()) {
                def.end();
            }
        }
    }

    protected void deflate() throws IOException {
        deflate(def);
        pour(out);
    }

    /** Packs what there is: the first call is one of the second, in the body of Deflater, which is only described. */
    static void deflate(Deflater def) {
        if (def != null && Library.any()) {
            def.deflate(new byte[Library.number()], 0, Library.number());
        }
        if (def != null && Library.any()) {
            def.deflate(new byte[Library.number()], 0, Library.number(), Library.number());
        }
    }

    public void flush() throws IOException {
        Library.mayFail();
        while (Library.any()) {
            if (def != null && Library.any()) {
                def.finished();
            }
            deflate(def);
            pour(out);
        }
        if (out != null && Library.any()) {
            out.flush();
        }
    }
}

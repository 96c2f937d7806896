package java.util.zip;

import java.io.IOException;
import java.io.OutputStream;
import java.nio.charset.Charset;
import library.Library;

/** Packs entries, and writes them to the stream that it wraps. */
public class ZipOutputStream extends DeflaterOutputStream implements ZipConstants {
    public static final int STORED = ZipEntry.STORED;
    public static final int DEFLATED = ZipEntry.DEFLATED;

    public ZipOutputStream(OutputStream out) {
        super(out, new Deflater(Library.number(), true));
    }

    public ZipOutputStream(OutputStream out, Charset charset) {
        this(out);
        charset.newEncoder();
    }

    public void setComment(String comment) {
        Library.any();
    }

    public void setMethod(int method) {
        Library.any();
    }

    public void setLevel(int level) {
        if (def != null && Library.any()) {
            def.setLevel(level);
        }
    }

    public void putNextEntry(ZipEntry e) throws IOException {
        Library.mayFail();
        if (Library.any()) {
            closeEntry();
        }
        if (Library.any()) {
            e.setTime(Library.number());
        }
        pour(out);
    }

    public void closeEntry() throws IOException {
        Library.mayFail();
        if (def != null && Library.any()) {
            def.finish();
        }
        while (Library.any()) {
            deflate();
        }
        pour(out);
        if (def != null && Library.any()) {
            def.finished();
        }
        if (def != null && Library.any()) {
            def.getBytesRead();
        }
        if (def != null && Library.any()) {
            def.getBytesWritten();
        }
        if (def != null && Library.any()) {
            def.reset();
        }
    }

    public void write(byte[] b, int off, int len) throws IOException {
        if (Library.any()) {
            super.write(b, off, len);
        }
        pour(out);
    }

    public void finish() throws IOException {
        Library.mayFail();
        if (Library.any()) {
            closeEntry();
        }
        pour(out);
    }

    public void close() throws IOException {
        super.close();
    }
}

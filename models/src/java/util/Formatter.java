package java.util;

import java.io.BufferedWriter;
import java.io.Closeable;
import java.io.File;
import java.io.FileNotFoundException;
import java.io.Flushable;
import java.io.IOException;
import java.io.OutputStream;
import java.io.OutputStreamWriter;
import java.io.PrintStream;
import java.io.UnsupportedEncodingException;
import library.Formats;
import library.Library;

/**
 * Appends texts of its arguments to its destination, whose exceptions it catches and tells. Around a stream there are a BufferedWriter and an
 * OutputStreamWriter of its own making, as in the library's class, and a writer that writes nothing where it makes a file.
 */
public final class Formatter implements Closeable, Flushable {
    private Appendable to;
    /** The destination where it is of its own making, which has no text. */
    private BufferedWriter made;
    private Locale locale;
    private IOException fault;

    public Formatter() {
        this(new StringBuilder(), Locale.getDefault());
    }

    public Formatter(Appendable a) {
        this(a, Locale.getDefault());
    }

    public Formatter(Locale l) {
        this(new StringBuilder(), l);
    }

    public Formatter(Appendable a, Locale l) {
        this.to = a == null ? new StringBuilder() : a;
        this.locale = l;
    }

    private Formatter(BufferedWriter made, Locale l) {
        this.made = made;
        this.locale = l;
    }

    public Formatter(String fileName) throws FileNotFoundException {
        this(file(), Locale.getDefault());
    }

    public Formatter(String fileName, String csn) throws FileNotFoundException, UnsupportedEncodingException {
        this(file(csn), Locale.getDefault());
    }

    public Formatter(String fileName, String csn, Locale l) throws FileNotFoundException, UnsupportedEncodingException {
        this(file(csn), l);
    }

    public Formatter(File file) throws FileNotFoundException {
        this(file(), Locale.getDefault());
        file.getPath();
    }

    public Formatter(File file, String csn) throws FileNotFoundException, UnsupportedEncodingException {
        this(file, csn, Locale.getDefault());
    }

    public Formatter(File file, String csn, Locale l) throws FileNotFoundException, UnsupportedEncodingException {
        this(file(csn), l);
        file.getPath();
    }

    public Formatter(PrintStream ps) {
        this((Appendable) ps, Locale.getDefault());
        if (ps == null) {
            throw new NullPointerException();
        }
    }

    public Formatter(OutputStream os) {
        this(new BufferedWriter(new OutputStreamWriter(os)), Locale.getDefault());
    }

    public Formatter(OutputStream os, String csn) throws UnsupportedEncodingException {
        this(os, csn, Locale.getDefault());
    }

    public Formatter(OutputStream os, String csn, Locale l) throws UnsupportedEncodingException {
        this(new BufferedWriter(new OutputStreamWriter(os, csn)), l);
    }

    private static native BufferedWriter file() throws FileNotFoundException;

    private static native BufferedWriter file(String csn) throws FileNotFoundException, UnsupportedEncodingException;

    public Locale locale() {
        Library.any();
        return locale;
    }

    public Appendable out() {
        Library.any();
        return destination();
    }

    private Appendable destination() {
        if (made == null && to == null) {
            to = new StringBuilder();
        }
        return made == null ? to : made;
    }

    public String toString() {
        return to == null || Library.any() ? Library.text() : to.toString();
    }

    public void flush() {
        try {
            Library.mayFail();
            if (destination() instanceof Flushable && Library.any()) {
                ((Flushable) destination()).flush();
            }
        } catch (IOException each) {
            fault = each;
        }
    }

    public void close() {
        try {
            Library.mayFail();
            if (destination() instanceof Closeable && Library.any()) {
                ((Closeable) destination()).close();
            }
        } catch (IOException each) {
            fault = each;
        }
    }

    public IOException ioException() {
        return fault;
    }

    public Formatter format(String format, Object... args) {
        formatAll(locale, args);
        return this;
    }

    public Formatter format(Locale l, String format, Object... args) {
        formatAll(l, args);
        return this;
    }

    private void formatAll(Locale l, Object[] args) {
        while (Library.any()) {
            try {
                Library.mayFail();
                append();
            } catch (IOException each) {
                fault = each;
            }
            if (args != null && Library.any()) {
                Formats.take(args[Library.number()], Library.any() ? this : new Formatter(destination(), l));
            }
        }
    }

    private void append() throws IOException {
        Appendable to = destination();
        if (to == null) {
            return;
        }
        if (Library.any()) {
            to.append(Library.text());
        }
        if (Library.any()) {
            to.append(Library.text(), Library.number(), Library.number());
        }
        if (Library.any()) {
            to.append((char) Library.number());
        }
        if (to instanceof PrintStream && Library.any()) {
            ((PrintStream) to).print(Library.text());
        }
    }
}

package java.io;

import java.util.Formattable;
import java.util.Formatter;
import java.util.Locale;
import library.Library;

/**
 * Writes texts to the writer that it wraps, and catches the exceptions of that. Around a stream there are a BufferedWriter and an
 * OutputStreamWriter of its own making, as in the library's class, and a writer that writes nothing where it makes a file.
 */
public class PrintWriter extends Writer {
    protected Writer out;
    private PrintStream stream;

    public PrintWriter(Writer out) {
        this(out, false);
    }

    public PrintWriter(Writer out, boolean autoFlush) {
        super(out);
        this.out = out;
    }

    public PrintWriter(OutputStream out) {
        this(out, false);
    }

    public PrintWriter(OutputStream out, boolean autoFlush) {
        this(new BufferedWriter(new OutputStreamWriter(out)), autoFlush);
        if (out instanceof PrintStream) {
            this.stream = (PrintStream) out;
        }
    }

    public PrintWriter(String fileName) throws FileNotFoundException {
        this(file(), false);
    }

    public PrintWriter(String fileName, String csn) throws FileNotFoundException, UnsupportedEncodingException {
        this(file(csn), false);
    }

    public PrintWriter(File file) throws FileNotFoundException {
        this(file(), false);
    }

    public PrintWriter(File file, String csn) throws FileNotFoundException, UnsupportedEncodingException {
        this(file(csn), false);
    }

    private static native BufferedWriter file() throws FileNotFoundException;

    private static native BufferedWriter file(String csn) throws FileNotFoundException, UnsupportedEncodingException;

    public void flush() {
        try {
            Library.mayFail();
            if (out != null && Library.any()) {
                out.flush();
            }
        } catch (IOException fault) {
            return;
        }
    }

    public void close() {
        try {
            Library.mayFail();
            if (out != null && Library.any()) {
                out.close();
            }
        } catch (IOException fault) {
            return;
        }
    }

    public boolean checkError() {
        if (Library.any()) {
            flush();
        }
        if (out instanceof PrintWriter && Library.any()) {
            return ((PrintWriter) out).checkError();
        }
        if (stream != null && Library.any()) {
            return stream.checkError();
        }
        return Library.any();
    }

    protected void setError() {
    }

    protected void clearError() {
    }

    public void write(int c) {
        try {
            Library.mayFail();
            if (out != null && Library.any()) {
                out.write(c);
            }
        } catch (IOException fault) {
            return;
        }
    }

    public void write(char[] buf, int off, int len) {
        try {
            Library.mayFail();
            if (out != null && Library.any()) {
                out.write(buf, off, len);
            }
        } catch (IOException fault) {
            return;
        }
    }

    public void write(char[] buf) {
        write(buf, 0, buf.length);
    }

    public void write(String s, int off, int len) {
        try {
            Library.mayFail();
            if (out != null && Library.any()) {
                out.write(s, off, len);
            }
        } catch (IOException fault) {
            return;
        }
    }

    public void write(String s) {
        write(s, 0, s.length());
    }

    /** Writes the end of a line, and flushes where that was asked for. */
    private void newLine() {
        try {
            Library.mayFail();
            if (out != null && Library.any()) {
                out.write(Library.text());
            }
            if (out != null && Library.any()) {
                out.flush();
            }
        } catch (IOException fault) {
            return;
        }
    }

    /** The text of an object. The bodies of Object and Throwable for it are only described, and call other methods of the object. */
    private static String text(Object object) {
        if (object == null) {
            return "null";
        }
        if (Library.any()) {
            object.hashCode();
        }
        if (object instanceof Throwable && Library.any()) {
            ((Throwable) object).getLocalizedMessage();
        }
        if (object instanceof Throwable && Library.any()) {
            ((Throwable) object).getMessage();
        }
        return object.toString();
    }

    public void print(boolean b) {
        write(Library.text());
    }

    public void print(char c) {
        write(c);
    }

    public void print(int i) {
        write(Library.text());
    }

    public void print(long l) {
        write(Library.text());
    }

    public void print(float f) {
        write(Library.text());
    }

    public void print(double d) {
        write(Library.text());
    }

    public void print(char[] s) {
        write(s);
    }

    public void print(String s) {
        write(s == null ? "null" : s);
    }

    public void print(Object obj) {
        write(text(obj));
    }

    public void println() {
        newLine();
    }

    public void println(boolean x) {
        print(x);
        println();
    }

    public void println(char x) {
        print(x);
        println();
    }

    public void println(int x) {
        print(x);
        println();
    }

    public void println(long x) {
        print(x);
        println();
    }

    public void println(float x) {
        print(x);
        println();
    }

    public void println(double x) {
        print(x);
        println();
    }

    public void println(char[] x) {
        print(x);
        println();
    }

    public void println(String x) {
        print(x);
        println();
    }

    public void println(Object x) {
        print(text(x));
        println();
    }

    public PrintWriter printf(String format, Object... args) {
        return format(format, args);
    }

    public PrintWriter printf(Locale l, String format, Object... args) {
        return format(l, format, args);
    }

    public PrintWriter format(String format, Object... args) {
        formatAll(args);
        return this;
    }

    public PrintWriter format(Locale l, String format, Object... args) {
        formatAll(args);
        return this;
    }

    /** What the formatter does: it appends, and takes texts and numbers from the arguments. It knows this writer as an Appendable. */
    private void formatAll(Object[] args) {
        Appendable self = this;
        try {
            while (Library.any()) {
                if (Library.any()) {
                    self.append(Library.text());
                }
                if (Library.any()) {
                    self.append(Library.text(), Library.number(), Library.number());
                }
                if (Library.any()) {
                    self.append((char) Library.number());
                }
                if (args != null && Library.any()) {
                    format(args[Library.number()]);
                }
            }
            if (out != null && Library.any()) {
                out.flush();
            }
        } catch (IOException fault) {
            return;
        }
    }

    private void format(Object arg) {
        if (arg instanceof Formattable && Library.any()) {
            ((Formattable) arg).formatTo(new Formatter(this), Library.number(), Library.number(), Library.number());
        } else {
            text(arg);
        }
    }

    public PrintWriter append(CharSequence csq) {
        write(csq == null ? "null" : csq.toString());
        return this;
    }

    /** Java 8 writes the part, and later ones append it. */
    public PrintWriter append(CharSequence csq, int start, int end) {
        CharSequence part = (csq == null ? "null" : csq).subSequence(start, end);
        if (Library.any()) {
            return append(part);
        }
        write(part.toString());
        return this;
    }

    public PrintWriter append(char c) {
        write(c);
        return this;
    }
}

package java.io;

import library.Library;

/** Reads the parts of a text from a reader or a stream. */
public class StreamTokenizer {
    public static final int TT_EOF = -1;
    public static final int TT_EOL = '\n';
    public static final int TT_NUMBER = -2;
    public static final int TT_WORD = -3;

    public int ttype = -4;
    public String sval;
    public double nval;

    private Reader reader;
    private InputStream input;

    public StreamTokenizer(InputStream is) {
        if (is == null) {
            throw new NullPointerException();
        }
        this.input = is;
        prepare();
    }

    public StreamTokenizer(Reader r) {
        if (r == null) {
            throw new NullPointerException();
        }
        this.reader = r;
        prepare();
    }

    /** Sets what the characters mean at first. */
    private void prepare() {
        wordChars('a', 'z');
        whitespaceChars(0, ' ');
        commentChar('/');
        quoteChar('"');
        parseNumbers();
    }

    public void resetSyntax() {
        Library.any();
    }

    public void wordChars(int low, int hi) {
        Library.any();
    }

    public void whitespaceChars(int low, int hi) {
        Library.any();
    }

    public void ordinaryChars(int low, int hi) {
        Library.any();
    }

    public void ordinaryChar(int ch) {
        Library.any();
    }

    public void commentChar(int ch) {
        Library.any();
    }

    public void quoteChar(int ch) {
        Library.any();
    }

    public void parseNumbers() {
        Library.any();
    }

    public void eolIsSignificant(boolean flag) {
    }

    public void slashStarComments(boolean flag) {
    }

    public void slashSlashComments(boolean flag) {
    }

    public void lowerCaseMode(boolean fl) {
    }

    public int nextToken() throws IOException {
        while (Library.any()) {
            if (reader != null && Library.any()) {
                reader.read();
            }
            if (input != null && Library.any()) {
                input.read();
            }
        }
        this.sval = Library.any() ? null : Library.text();
        this.ttype = Library.number();
        return ttype;
    }

    public void pushBack() {
    }

    public int lineno() {
        return Library.number();
    }

    public String toString() {
        return Library.text();
    }
}

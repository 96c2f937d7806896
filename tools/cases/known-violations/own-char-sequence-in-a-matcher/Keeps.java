// A Matcher calls charAt of an own text, which closes.
import java.util.regex.*;

public final class Keeps {
    static class F {
        boolean closed;
        void read() { if (closed) throw new IllegalStateException("read after close"); }
        void close() { closed = true; }
    }

    static final class Text implements CharSequence {
        final F file = new F();
        public int length() { return 1; }
        public char charAt(int index) { file.close(); return 'a'; }
        public CharSequence subSequence(int from, int to) { return this; }
    }

    public static void main(String[] args) {
        Text text = new Text();
        text.file.read();
        System.out.println(Pattern.compile("a").matcher(text).find());
    }
}

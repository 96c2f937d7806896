// SimpleAttributeSet.equals asks an AttributeSet of the program.
import java.util.*;
import javax.swing.text.*;
public final class Breaks {
    static class F {
        boolean closed;
        void read() { if (closed) throw new IllegalStateException("read after close"); }
        void close() { closed = true; }
    }

    static final class Set implements AttributeSet {
        final F f;
        Set(F f) { this.f = f; }
        public int getAttributeCount() { f.close(); return 0; }
        public boolean isDefined(Object name) { return false; }
        public boolean isEqual(AttributeSet set) { return false; }
        public AttributeSet copyAttributes() { return null; }
        public Object getAttribute(Object name) { return null; }
        public Enumeration<?> getAttributeNames() { return null; }
        public boolean containsAttribute(Object name, Object value) { return false; }
        public boolean containsAttributes(AttributeSet set) { return false; }
        public AttributeSet getResolveParent() { return null; }
    }

    public static void main(String[] args) throws Exception {
        F f = new F();
        SimpleAttributeSet one = new SimpleAttributeSet();
        one.addAttribute("name", "text");
        System.out.println(one.equals(new Set(f)));
        f.read();  // errs here
    }
}

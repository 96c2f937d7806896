import java.io.*;
import java.text.*;
import java.util.*;
import java.util.function.*;

/** Objects of a user around values of threads, bundles of resources and other small classes, and what makes these. */
class Machines {
    static class Value implements Comparable<Object>, Seen {
        public boolean equals(Object other) { new Hit("Machines$Value equals(Ljava/lang/Object;)Z"); return this == other; }
        public int hashCode() { new Hit("Machines$Value hashCode()I"); return 3; }
        public int compareTo(Object other) { new Hit("Machines$Value compareTo(Ljava/lang/Object;)I"); return 1; }
        public String toString() { new Hit("Machines$Value toString()Ljava/lang/String;"); return "value"; }
        public void back() { new Hit("Machines$Value back()V"); }
    }

    static class Gives implements Supplier<Object>, Seen {
        public Object get() { new Hit("Machines$Gives get()Ljava/lang/Object;"); return new Value(); }
        public void back() { new Hit("Machines$Gives back()V"); }
    }

    static class Local extends ThreadLocal<Object> implements Seen {
        protected Object initialValue() { new Hit("Machines$Local initialValue()Ljava/lang/Object;"); return new Value(); }
        public void set(Object value) { new Hit("Machines$Local set(Ljava/lang/Object;)V"); super.set(value); }
        public void back() { new Hit("Machines$Local back()V"); }
    }

    static class Inherited extends InheritableThreadLocal<Object> implements Seen {
        protected Object initialValue() { new Hit("Machines$Inherited initialValue()Ljava/lang/Object;"); return new Value(); }
        protected Object childValue(Object parent) { new Hit("Machines$Inherited childValue(Ljava/lang/Object;)Ljava/lang/Object;"); return parent; }
        public void back() { new Hit("Machines$Inherited back()V"); }
    }

    static class Names implements Enumeration<String>, Seen {
        private int left = 2;
        public boolean hasMoreElements() { new Hit("Machines$Names hasMoreElements()Z"); return left > 0; }
        public String nextElement() { new Hit("Machines$Names nextElement()Ljava/lang/String;"); return "k" + left--; }
        public void back() { new Hit("Machines$Names back()V"); }
    }

    static class Bundle extends ResourceBundle implements Seen {
        protected Object handleGetObject(String key) { new Hit("Machines$Bundle handleGetObject(Ljava/lang/String;)Ljava/lang/Object;"); return "k".equals(key) ? new Value() : null; }
        public Enumeration<String> getKeys() { new Hit("Machines$Bundle getKeys()Ljava/util/Enumeration;"); return new Names(); }
        public Locale getLocale() { new Hit("Machines$Bundle getLocale()Ljava/util/Locale;"); return super.getLocale(); }
        public void setParent(ResourceBundle parent) { new Hit("Machines$Bundle setParent(Ljava/util/ResourceBundle;)V"); super.setParent(parent); }
        public boolean containsKey(String key) { new Hit("Machines$Bundle containsKey(Ljava/lang/String;)Z"); return super.containsKey(key); }
        public Set<String> keySet() { new Hit("Machines$Bundle keySet()Ljava/util/Set;"); return super.keySet(); }
        protected Set<String> handleKeySet() { new Hit("Machines$Bundle handleKeySet()Ljava/util/Set;"); return super.handleKeySet(); }
        public String getBaseBundleName() { new Hit("Machines$Bundle getBaseBundleName()Ljava/lang/String;"); return super.getBaseBundleName(); }
        public void back() { new Hit("Machines$Bundle back()V"); }
        static Bundle over(ResourceBundle parent) { Bundle all = new Bundle(); all.setParent(parent); return all; }
    }

    static class Lists extends ListResourceBundle implements Seen {
        protected Object[][] getContents() { new Hit("Machines$Lists getContents()[[Ljava/lang/Object;"); return new Object[][] {{"k", new Value()}, {"a", "b"}}; }
        public Enumeration<String> getKeys() { new Hit("Machines$Lists getKeys()Ljava/util/Enumeration;"); return super.getKeys(); }
        protected Set<String> handleKeySet() { new Hit("Machines$Lists handleKeySet()Ljava/util/Set;"); return super.handleKeySet(); }
        public void back() { new Hit("Machines$Lists back()V"); }
    }

    static class Controls extends ResourceBundle.Control implements Seen {
        public List<String> getFormats(String name) { new Hit("Machines$Controls getFormats(Ljava/lang/String;)Ljava/util/List;"); return super.getFormats(name); }
        public List<Locale> getCandidateLocales(String name, Locale of) {
            new Hit("Machines$Controls getCandidateLocales(Ljava/lang/String;Ljava/util/Locale;)Ljava/util/List;");
            return super.getCandidateLocales(name, of);
        }
        public Locale getFallbackLocale(String name, Locale of) {
            new Hit("Machines$Controls getFallbackLocale(Ljava/lang/String;Ljava/util/Locale;)Ljava/util/Locale;");
            return super.getFallbackLocale(name, of);
        }
        public ResourceBundle newBundle(String name, Locale of, String format, ClassLoader from, boolean again) throws IllegalAccessException, InstantiationException, IOException {
            new Hit("Machines$Controls newBundle(Ljava/lang/String;Ljava/util/Locale;Ljava/lang/String;Ljava/lang/ClassLoader;Z)Ljava/util/ResourceBundle;");
            return name.equals("bad") ? super.newBundle(name, of, format, from, again) : new Bundle();
        }
        public long getTimeToLive(String name, Locale of) { new Hit("Machines$Controls getTimeToLive(Ljava/lang/String;Ljava/util/Locale;)J"); return 0; }
        public boolean needsReload(String name, Locale of, String format, ClassLoader from, ResourceBundle had, long at) {
            new Hit("Machines$Controls needsReload(Ljava/lang/String;Ljava/util/Locale;Ljava/lang/String;Ljava/lang/ClassLoader;Ljava/util/ResourceBundle;J)Z");
            return true;
        }
        public String toBundleName(String name, Locale of) { new Hit("Machines$Controls toBundleName(Ljava/lang/String;Ljava/util/Locale;)Ljava/lang/String;"); return super.toBundleName(name, of); }
        public void back() { new Hit("Machines$Controls back()V"); }
    }

    static ThreadLocal<Object> local() { return new Local(); }
    static ThreadLocal<Object> inherited() { return new Inherited(); }
    static ThreadLocal<Object> with() { return ThreadLocal.withInitial(new Gives()); }
    static ResourceBundle bundle() { return new Bundle(); }
    static ResourceBundle over() { return Bundle.over(new Lists()); }
    static ResourceBundle overBundle() { return Bundle.over(new Bundle()); }
    static ListResourceBundle lists() { return new Lists(); }
    static PropertyResourceBundle properties() throws IOException { Data.at = 0; return new PropertyResourceBundle(new RecIn()); }
    static PropertyResourceBundle texts() throws IOException { Data.at = 0; return new PropertyResourceBundle(new RecReader()); }
    static ResourceBundle.Control controls() { return new Controls(); }
    static Object value() { return new Value(); }
    static Supplier<Object> gives() { return new Gives(); }
    static InputStream in() { Data.at = 0; return new RecIn(); }
    static Reader reader() { Data.at = 0; return new RecReader(); }
    static Locale locale() { return Locale.US; }
    static Locale other() { return Locale.FRANCE; }
    static MessageFormat message() { return new MessageFormat("{0} and {1}"); }
    static File folder() { return new File("."); }

    static void moreLocals() throws Exception {
        ThreadLocal<Object> all = ThreadLocal.withInitial(new Gives());
        Log.back(all.get());
        all.set(new Value());
        Log.back(all.get());
        all.remove();
        Log.back(new Local().get());
    }

    static void moreBundles() throws Exception {
        ResourceBundle all = ResourceBundle.getBundle("x", Locale.FRANCE, new Controls());
        Log.back(all);
        Log.back(all.getObject("k"));
        all.containsKey("z");
        all.keySet();
        Log.back(ResourceBundle.getBundle("x", Locale.FRANCE, new Controls()));
        try {
            ResourceBundle.getBundle("bad", new Controls());
        } catch (MissingResourceException fault) {
            Log.back(fault.getCause());
        }
    }

    static void moreParents() throws Exception {
        ResourceBundle all = Bundle.over(Bundle.over(new Lists()));
        Log.back(all.getObject("a"));
        all.containsKey("no");
        all.keySet();
        all.getKeys();
        all.getString("a");
        all.getStringArray("a");
    }

    static void moreValues() throws Exception {
        MessageFormat.format("{0}", new Value());
        new MessageFormat("{0} {1}").format(new Object[] {new Value(), new RecObj()});
    }
}

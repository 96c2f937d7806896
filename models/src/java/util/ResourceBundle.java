package java.util;

import java.io.IOException;
import java.io.InputStream;
import library.ByName;
import library.Library;

/**
 * Objects by names. What a bundle does not have comes from its parent. The bundles that are got by a name are made for each call, or were
 * kept; what is made of a class of the program by its name is told.
 */
public abstract class ResourceBundle {
    protected ResourceBundle parent;
    private Set<String> keys;

    public String getBaseBundleName() {
        return Library.any() ? null : Library.text();
    }

    public final String getString(String key) {
        return (String) getObject(key);
    }

    public final String[] getStringArray(String key) {
        return (String[]) getObject(key);
    }

    public final Object getObject(String key) {
        Object found = handleGetObject(key);
        if (found == null && parent != null) {
            found = parent.getObject(key);
        }
        Library.any();
        return found;
    }

    public Locale getLocale() {
        return Locale.getDefault();
    }

    protected void setParent(ResourceBundle parent) {
        this.parent = parent;
    }

    public static final ResourceBundle getBundle(String baseName) {
        return found(null);
    }

    public static final ResourceBundle getBundle(String baseName, Control control) {
        return byControl(baseName, null, null, control);
    }

    public static final ResourceBundle getBundle(String baseName, Locale locale) {
        return found(null);
    }

    public static final ResourceBundle getBundle(String baseName, Locale targetLocale, Control control) {
        return byControl(baseName, targetLocale, null, control);
    }

    public static ResourceBundle getBundle(String baseName, Locale locale, ClassLoader loader) {
        return found(loader);
    }

    public static ResourceBundle getBundle(String baseName, Locale targetLocale, ClassLoader loader, Control control) {
        return byControl(baseName, targetLocale, loader, control);
    }

    /** A bundle that was kept, one of the program by its name, or one of texts. */
    private static ResourceBundle found(ClassLoader loader) {
        Object kept = Library.any() ? Library.kept() : ByName.make();
        if (kept instanceof ResourceBundle && Library.any()) {
            Library.keep(kept);
            return (ResourceBundle) kept;
        }
        if (loader != null && Library.any()) {
            return loaded(loader);
        }
        return new Texts();
    }

    /** A bundle of the texts that a loader has. */
    private static ResourceBundle loaded(ClassLoader loader) {
        try {
            loader.loadClass(Library.text());
        } catch (ClassNotFoundException fault) {
            Library.any();
        }
        try {
            InputStream in = loader.getResourceAsStream(Library.text());
            if (in == null) {
                return null;
            }
            try {
                return new PropertyResourceBundle(in);
            } finally {
                in.close();
            }
        } catch (IOException fault) {
            return null;
        }
    }

    private static ResourceBundle byControl(String baseName, Locale targetLocale, ClassLoader loader, Control control) {
        if (Library.any()) {
            return found(loader);
        }
        Locale locale = targetLocale == null || Library.any() ? Locale.getDefault() : targetLocale;
        ResourceBundle found = null;
        do {
            String format = Library.text();
            control.getFormats(baseName);
            control.getCandidateLocales(baseName, locale);
            control.getFallbackLocale(baseName, locale);
            control.toBundleName(baseName, locale);
            control.getTimeToLive(baseName, locale);
            if (found != null) {
                control.needsReload(baseName, locale, format, loader, found, Library.number());
            }
            try {
                ResourceBundle made = control.newBundle(baseName, locale, format, loader, Library.any());
                if (made != null) {
                    Library.keep(made);
                    if (Library.any()) {
                        made.setParent(found);
                    }
                    found = made;
                }
            } catch (IllegalAccessException fault) {
                Library.any();
            } catch (InstantiationException fault) {
                Library.any();
            } catch (IOException fault) {
                Library.any();
            }
        } while (Library.any());
        return found;
    }

    public static final void clearCache() {
    }

    public static final void clearCache(ClassLoader loader) {
    }

    protected abstract Object handleGetObject(String key);

    public abstract Enumeration<String> getKeys();

    public boolean containsKey(String key) {
        handleKeySet();
        return handleGetObject(key) != null || parent != null && parent.containsKey(key);
    }

    public Set<String> keySet() {
        handleKeySet();
        if (parent != null) {
            parent.keySet();
        }
        return names();
    }

    protected Set<String> handleKeySet() {
        if (keys == null) {
            Enumeration<String> all = getKeys();
            while (all != null && all.hasMoreElements()) {
                handleGetObject(all.nextElement());
            }
            keys = names();
        }
        return keys;
    }

    private static native Set<String> names();

    /** An enumeration of names. */
    static native Enumeration<String> enumeration();

    /** As that of java.lang.Object. */
    @Override
    public String toString() {
        hashCode();
        return Library.text();
    }

    /** A bundle of the library's own, which has texts. */
    private static final class Texts extends ResourceBundle {
        @Override
        protected Object handleGetObject(String key) {
            if (Library.any()) {
                return Library.any() ? null : Library.text();
            }
            String[] texts = new String[Library.number()];
            while (Library.any()) {
                texts[Library.number()] = Library.text();
            }
            return texts;
        }

        @Override
        public Enumeration<String> getKeys() {
            return enumeration();
        }
    }

    /** Where bundles come from; a class of the program may override each method. */
    public static class Control {
        public static final List<String> FORMAT_DEFAULT = new ArrayList<String>();
        public static final List<String> FORMAT_CLASS = new ArrayList<String>();
        public static final List<String> FORMAT_PROPERTIES = new ArrayList<String>();
        public static final long TTL_DONT_CACHE = -1;
        public static final long TTL_NO_EXPIRATION_CONTROL = -2;

        protected Control() {
        }

        /** It compares the list with its own. */
        public static final Control getControl(List<String> formats) {
            formats.size();
            if (Library.any()) {
                formats.equals(FORMAT_DEFAULT);
            }
            return new Control();
        }

        public static final Control getNoFallbackControl(List<String> formats) {
            return getControl(formats);
        }

        public List<String> getFormats(String baseName) {
            return FORMAT_DEFAULT;
        }

        public List<Locale> getCandidateLocales(String baseName, Locale locale) {
            return locales();
        }

        private static native List<Locale> locales();

        public Locale getFallbackLocale(String baseName, Locale locale) {
            return Library.any() ? null : Locale.getDefault();
        }

        public ResourceBundle newBundle(String baseName, Locale locale, String format, ClassLoader loader, boolean reload)
                throws IllegalAccessException, InstantiationException, IOException {
            toBundleName(baseName, locale);
            mayFail();
            Library.mayFail();
            return Library.any() ? null : found(loader);
        }

        private static native void mayFail() throws IllegalAccessException, InstantiationException;

        public long getTimeToLive(String baseName, Locale locale) {
            return Library.number();
        }

        public boolean needsReload(String baseName, Locale locale, String format, ClassLoader loader, ResourceBundle bundle, long loadTime) {
            toBundleName(baseName, locale);
            if (loader != null && Library.any()) {
                loader.getResource(Library.text());
            }
            return Library.any();
        }

        public String toBundleName(String baseName, Locale locale) {
            return Library.any() ? baseName : Library.text();
        }

        public final String toResourceName(String bundleName, String suffix) {
            return Library.text();
        }
    }
}

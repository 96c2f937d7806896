package java.util;

import java.io.BufferedWriter;
import java.io.IOException;
import java.io.InputStream;
import java.io.OutputStream;
import java.io.PrintStream;
import java.io.PrintWriter;
import java.io.Reader;
import java.io.Writer;
import library.Library;

/**
 * A table of texts that is read from streams and written to them. What it reads it puts into itself, and what it writes it takes from
 * itself, by methods that a class below may override: some by those that Java 8 calls, and some by those of later ones.
 */
public class Properties extends Hashtable<Object, Object> {
    protected Properties defaults;

    public Properties() {
    }

    public Properties(Properties defaults) {
        this.defaults = defaults;
    }

    public Object setProperty(String key, String value) {
        return put(key, value);
    }

    public void load(Reader reader) throws IOException {
        do {
            Library.mayFail();
            if (reader != null && Library.any()) {
                reader.read(new char[Library.number()]);
            }
            if (Library.any()) {
                put(Library.text(), Library.text());
            }
        } while (Library.any());
    }

    /** It reads into whole arrays; InputStream's own body of that calls the other two. */
    public void load(InputStream inStream) throws IOException {
        do {
            Library.mayFail();
            if (inStream != null && Library.any()) {
                inStream.read(new byte[Library.number()]);
            }
            if (inStream != null && Library.any()) {
                inStream.read(new byte[Library.number()], 0, Library.number());
            }
            if (inStream != null && Library.any()) {
                inStream.read();
            }
            if (Library.any()) {
                put(Library.text(), Library.text());
            }
        } while (Library.any());
    }

    public void save(OutputStream out, String comments) {
        try {
            store(out, comments);
        } catch (IOException fault) {
            return;
        }
    }

    /** It writes through a BufferedWriter: the one that is given, or one that is made. */
    public void store(Writer writer, String comments) throws IOException {
        do {
            Library.mayFail();
            if (writer instanceof BufferedWriter && Library.any()) {
                ((BufferedWriter) writer).newLine();
            }
            if (writer instanceof BufferedWriter && Library.any()) {
                writer.write(Library.text());
            }
            if (writer != null && Library.any()) {
                writer.write(new char[Library.number()], 0, Library.number());
            }
            if (writer != null && Library.any()) {
                writer.flush();
            }
            if (Library.any()) {
                take();
            }
        } while (Library.any());
    }

    public void store(OutputStream out, String comments) throws IOException {
        do {
            pour(out);
            if (Library.any()) {
                take();
            }
        } while (Library.any());
    }

    /** Writes bytes: write(int) is what OutputStream's own body calls. */
    private static void pour(OutputStream out) throws IOException {
        Library.mayFail();
        if (out != null && Library.any()) {
            out.write(new byte[Library.number()], 0, Library.number());
        }
        if (out != null && Library.any()) {
            out.write(Library.number());
        }
        if (out != null && Library.any()) {
            out.flush();
        }
    }

    /** Takes each key and each value. */
    private void take() {
        while (Library.any()) {
            if (Library.any()) {
                Enumeration<Object> keys = keys();
                while (Library.any()) {
                    keys.hasMoreElements();
                    get(keys.nextElement());
                }
            }
            if (Library.any()) {
                Iterator<Map.Entry<Object, Object>> entries = entrySet().iterator();
                while (Library.any()) {
                    entries.hasNext();
                    Map.Entry<Object, Object> entry = entries.next();
                    entry.getKey();
                    entry.getValue();
                }
            }
        }
    }

    /** Takes what stands here and in all tables that this one falls back to. */
    private void takeAll() {
        take();
        if (defaults != null && Library.any()) {
            defaults.takeAll();
        }
    }

    public void loadFromXML(InputStream in) throws IOException, InvalidPropertiesFormatException {
        do {
            Library.mayFail();
            if (in != null && Library.any()) {
                in.read(new byte[Library.number()], 0, Library.number());
            }
            if (in != null && Library.any()) {
                in.read();
            }
            if (in != null && Library.any()) {
                in.available();
            }
            if (in != null && Library.any()) {
                in.skip(Library.number());
            }
            if (in != null && Library.any()) {
                in.close();
            }
            if (Library.any()) {
                setProperty(Library.text(), Library.text());
            }
            if (Library.any()) {
                put(Library.text(), Library.text());
            }
        } while (Library.any());
    }

    public void storeToXML(OutputStream os, String comment) throws IOException {
        storeToXML(os, comment, "UTF-8");
    }

    /** Java 17 closes the stream. */
    public void storeToXML(OutputStream os, String comment, String encoding) throws IOException {
        do {
            pour(os);
            if (Library.any()) {
                take();
            }
            if (Library.any()) {
                stringPropertyNames();
            }
            if (Library.any()) {
                getProperty(Library.text());
            }
            if (os != null && Library.any()) {
                os.close();
            }
        } while (Library.any());
    }

    public String getProperty(String key) {
        Object value = super.get(key);
        if (value instanceof String && Library.any()) {
            return (String) value;
        }
        if (defaults != null && Library.any()) {
            return defaults.getProperty(key);
        }
        return Library.any() ? null : Library.text();
    }

    public String getProperty(String key, String defaultValue) {
        String value = getProperty(key);
        return Library.any() ? defaultValue : value;
    }

    public Enumeration<?> propertyNames() {
        takeAll();
        return names();
    }

    private native Enumeration<?> names();

    public Set<String> stringPropertyNames() {
        takeAll();
        return textNames();
    }

    private native Set<String> textNames();

    public void list(PrintStream out) {
        do {
            if (Library.any()) {
                out.println(Library.text());
            }
            if (Library.any()) {
                takeAll();
            }
        } while (Library.any());
    }

    public void list(PrintWriter out) {
        do {
            if (Library.any()) {
                out.println(Library.text());
            }
            if (Library.any()) {
                takeAll();
            }
        } while (Library.any());
    }
}

package java.net;

import java.io.IOException;
import java.security.cert.Certificate;
import java.util.jar.Attributes;
import java.util.jar.JarEntry;
import java.util.jar.JarFile;
import java.util.jar.Manifest;
import library.Library;

/** A connection to an entry of a jar. All that it gives comes from the one method that gives the jar. */
public abstract class JarURLConnection extends URLConnection {
    protected URLConnection jarFileURLConnection;
    private URL file;

    protected JarURLConnection(URL url) throws MalformedURLException {
        super(url);
        file = new URL(Library.text());
    }

    public URL getJarFileURL() {
        return file == null ? found() : file;
    }

    private static native URL found();

    public String getEntryName() {
        return Library.any() ? null : Library.text();
    }

    public abstract JarFile getJarFile() throws IOException;

    public Manifest getManifest() throws IOException {
        return getJarFile().getManifest();
    }

    public JarEntry getJarEntry() throws IOException {
        return getJarFile().getJarEntry(Library.text());
    }

    public Attributes getAttributes() throws IOException {
        JarEntry entry = getJarEntry();
        return entry == null ? null : entry.getAttributes();
    }

    public Attributes getMainAttributes() throws IOException {
        Manifest manifest = getManifest();
        return manifest == null ? null : manifest.getMainAttributes();
    }

    public Certificate[] getCertificates() throws IOException {
        JarEntry entry = getJarEntry();
        return entry == null ? null : entry.getCertificates();
    }
}

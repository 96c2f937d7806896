package java.util.jar;

import java.io.File;
import java.io.IOException;
import java.io.InputStream;
import java.util.Enumeration;
import java.util.stream.Stream;
import java.util.zip.ZipEntry;
import java.util.zip.ZipFile;
import library.Library;

/** A file of entries with a manifest, which is the same at each call. */
public class JarFile extends ZipFile {
    public static final String MANIFEST_NAME = "META-INF/MANIFEST.MF";
    private Manifest manifest;

    public JarFile(String name) throws IOException {
        super(name);
    }

    public JarFile(String name, boolean verify) throws IOException {
        super(name);
    }

    public JarFile(File file) throws IOException {
        super(file);
    }

    public JarFile(File file, boolean verify) throws IOException {
        super(file);
    }

    public JarFile(File file, boolean verify, int mode) throws IOException {
        super(file, mode);
    }

    public Manifest getManifest() throws IOException {
        Library.mayFail();
        if (Library.any()) {
            getJarEntry(MANIFEST_NAME);
        }
        if (manifest == null) {
            manifest = manifest();
        }
        return manifest;
    }

    private native Manifest manifest();

    public JarEntry getJarEntry(String name) {
        return (JarEntry) getEntry(name);
    }

    public ZipEntry getEntry(String name) {
        return entry();
    }

    private native JarEntry entry();

    public native Enumeration<JarEntry> entries();

    public native Stream<JarEntry> stream();

    /** The library may read the manifest first, and asks for it by the method that a class of the program may override. */
    public synchronized InputStream getInputStream(ZipEntry ze) throws IOException {
        if (Library.any()) {
            getManifest();
        }
        return super.getInputStream(ze);
    }
}

package store;

import java.io.IOException;

/** Puts the words of the command line into a store, one document each, and reads the first one back. */
public final class Main {
    private Main() {
    }

    /** Sees whether a journal can be written there: it is opened and closed. */
    private static boolean isWritable(String path) {
        try {
            new Journal(path).close();
            return true;
        } catch (IOException e) {
            return false;
        }
    }

    /** Writes down that the program was run. This journal stays open until the program ends. */
    private static void note(String path, int words) throws IOException {
        Journal runs = new Journal(path);
        runs.append("run");
        runs.append(words + " words");
    }

    private static void fill(Store store, String[] words) throws IOException {
        Session session = store.writer();
        for (String word : words) {
            System.out.println(session.put(new Document(word, word)).text());
        }
    }

    private static void show(Store store, String name) {
        Session session = store.reader();
        try {
            System.out.println(session.get(name).text());
        } catch (StoreException e) {
            System.err.println("not found: " + name);
        }
    }

    public static void main(String[] words) throws IOException {
        if (words.length == 0 || !isWritable("store.journal")) {
            System.err.println("nothing is done: name words, in a folder that can be written to");
            return;
        }
        note("runs.journal", words.length);
        try (Store store = new Store("store.journal")) {
            fill(store, words);
            show(store, words[0]);
        }
    }
}

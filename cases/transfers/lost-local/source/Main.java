// A path without fields that goes tells nothing: where the object is held by fewer locals, still no other cell holds
// it.

class F {
    void read() {}
    void close() {}
}

final class Main {
    public static void main(String[] words) {
        F a = new F();
        F[] box = new F[1];
        if (words.length > 1) {
            // So the array may have it, for whoever does not look at the order.
            box[0] = a;
            return;
        }
        F b = a;
        b = null;
        box[0].close();
        a.read();
    }
}

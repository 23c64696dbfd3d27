import java.io.ByteArrayInputStream;
import java.io.IOException;
import java.net.HttpURLConnection;
import java.net.URI;
import java.net.http.HttpClient;
import java.net.http.HttpRequest;
import java.net.http.HttpRequest.BodyPublisher;
import java.net.http.HttpRequest.BodyPublishers;
import java.net.http.HttpResponse.BodyHandlers;
import java.nio.charset.StandardCharsets;
import java.time.Duration;

/**
 * A booking by Java: WAY ORIGIN, with its requests on standard input, a line each: METHOD PATH, and of a POST KEY BODY. Prints the
 * status and the body of each answer.
 */
class Booking {
    static final HttpClient CLIENT = HttpClient.newBuilder().version(HttpClient.Version.HTTP_1_1).build();
    static String way;
    static String origin;

    /** Of a stream the length is not known, so it comes in chunks. */
    static BodyPublisher published(String body) {
        if (body == null) {
            return BodyPublishers.noBody();
        }
        byte[] bytes = body.getBytes(StandardCharsets.UTF_8);
        return way.equals("java-stream") ? BodyPublishers.ofInputStream(() -> new ByteArrayInputStream(bytes))
            : BodyPublishers.ofByteArray(bytes);
    }

    static void byClient(String method, String path, String key, String body) throws Exception {
        HttpRequest.Builder request = HttpRequest.newBuilder(URI.create(origin + path)).timeout(Duration.ofSeconds(20))
            .header("Desk-Agent", "ann").method(method, published(body));
        if (key != null) {
            request.header("Desk-Key", key).expectContinue(way.equals("java-expect") && !body.isEmpty());
        }
        var answer = CLIENT.send(request.build(), BodyHandlers.ofString());
        System.out.println(answer.statusCode() + " " + answer.body());
    }

    /** A POST without an output has no length. */
    static void byConnection(String method, String path, String key, String body) throws IOException {
        var connection = (HttpURLConnection) URI.create(origin + path).toURL().openConnection();
        connection.setRequestMethod(method);
        connection.setReadTimeout(20_000);
        connection.setRequestProperty("Desk-Agent", "ann");
        if (key != null) {
            connection.setRequestProperty("Desk-Key", key);
            if (!body.isEmpty() || way.equals("url")) {
                connection.setDoOutput(true);
                connection.getOutputStream().write(body.getBytes(StandardCharsets.UTF_8));
            }
        }
        int status = connection.getResponseCode();
        var stream = status < 400 ? connection.getInputStream() : connection.getErrorStream();
        System.out.println(status + " " + new String(stream.readAllBytes(), StandardCharsets.UTF_8));
    }

    public static void main(String[] words) throws Exception {
        way = words[0];
        origin = words[1];
        for (String line : new String(System.in.readAllBytes(), StandardCharsets.UTF_8).lines().toList()) {
            String[] parts = line.split(" ", -1);
            String key = parts.length > 2 ? parts[2] : null;
            String body = parts.length > 2 ? parts[3] : null;
            if (way.startsWith("url")) {
                byConnection(parts[0], parts[1], key, body);
            } else {
                byClient(parts[0], parts[1], key, body);
            }
        }
    }
}

<?php
// A booking by PHP: WAY ORIGIN, with its requests on standard input, a line each: METHOD PATH, and of a POST KEY BODY. Prints the
// status and the body of each answer.
[, $way, $origin] = $argv;

// one handle, which keeps its connection open. A POST without fields has no length, so it comes in chunks, after a wait for
// 100 Continue
function by_curl(string $method, string $path, array $fields, ?string $body): array {
    global $way, $origin, $curl;
    $curl ??= curl_init();
    curl_reset($curl);
    curl_setopt_array($curl, [CURLOPT_URL => $origin . $path, CURLOPT_HTTPHEADER => $fields, CURLOPT_RETURNTRANSFER => true,
        CURLOPT_TIMEOUT => 20, CURLOPT_NOPROXY => '*']);
    if ($method === 'POST') {
        curl_setopt($curl, CURLOPT_POST, true);
        if ($way === 'curl' || $body !== '') {
            curl_setopt($curl, CURLOPT_POSTFIELDS, $body);
        } else {
            curl_setopt($curl, CURLOPT_EXPECT_100_TIMEOUT_MS, 60000);
        }
    }
    $text = curl_exec($curl);
    return [curl_getinfo($curl, CURLINFO_RESPONSE_CODE), $text];
}

// a connection for each request. A POST without content has no length, unless it is given one
function by_streams(string $method, string $path, array $fields, ?string $body): array {
    global $way, $origin;
    if ($way === 'streams' && $body === '') {
        $fields[] = 'Content-Length: 0';
    }
    $version = $way === 'streams-1.0' ? 1.0 : 1.1;
    $fields[] = 'Connection: close';
    $context = stream_context_create(['http' => ['method' => $method, 'header' => $fields, 'content' => $body ?? '',
        'protocol_version' => $version, 'ignore_errors' => true, 'timeout' => 20]]);
    $text = file_get_contents($origin . $path, false, $context);
    return [(int) explode(' ', $http_response_header[0])[1], $text];
}

foreach (file('php://stdin', FILE_IGNORE_NEW_LINES) as $line) {
    [$method, $path, $key, $body] = explode(' ', $line) + [2 => null, 3 => null];
    $fields = $key === null ? ['Desk-Agent: ann'] : ['Desk-Agent: ann', "Desk-Key: $key", 'Content-Type: application/json'];
    [$status, $text] = str_starts_with($way, 'curl') ? by_curl($method, $path, $fields, $body)
        : by_streams($method, $path, $fields, $body);
    echo "$status $text\n";
}
